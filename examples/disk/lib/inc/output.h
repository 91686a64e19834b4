/* Bytes that go to a descriptor: so a file or a pipe gets them, where descriptor 1 names one. print.h has what goes to the console,
   whatever that names. */
#ifndef INC_OUTPUT_H
#define INC_OUTPUT_H

#include "service.h"

/* All of these bytes. Where nobody reads what is written the program ends; where a write is refused it ends with a line. */
void write_all(uint32_t fd, const char *bytes, uint32_t count);

/* no descriptor, but the console */
#define CONSOLE MAXFD

/* Bytes that are written together: when there are as many as one write takes, and when they are flushed. */
struct output {
    uint32_t fd;
    uint32_t count;
    char bytes[FILE_WRITE_MAX];
};

void put(struct output *output, const char *bytes, uint32_t count);
void put_text(struct output *output, const char *text);

/* decimal digits, with blanks before them where they are fewer than the width */
void put_number(struct output *output, uint32_t number, uint32_t width);

void flush(struct output *output);

/* a line on the console: a name and the number of an error, which is an answer below 0 */
void tell_error(const char *name, int answer);

#endif
