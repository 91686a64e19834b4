/* What a filter reads: the files that its words name, or descriptor 0. */
#ifndef INC_INPUT_H
#define INC_INPUT_H

#include "service.h"

/* Calls a function with each file that the words behind the first one name, open for reading, and its name; where there is no such word,
   with descriptor 0 and the name `input`. Of one that can't be opened a line tells the error, and the next one follows. */
void for_inputs(int argc, char **argv, void (*with)(uint32_t fd, const char *name));

/* How many bytes have come to the buffer: 0 at the end, and behind an error, which a line tells. */
uint32_t next_bytes(uint32_t fd, const char *name, char *buffer, uint32_t size);

#endif
