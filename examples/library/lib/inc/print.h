/* Texts and numbers on the console, each by one cputs. */
#ifndef INC_PRINT_H
#define INC_PRINT_H

#include "types.h"

void print(const char *text);

/* eight hexadecimal digits */
void print_hex(uint32_t number);

/* decimal digits */
void print_number(uint32_t number);

/* a line: a text, a colon and eight hexadecimal digits */
void print_line(const char *what, uint32_t number);

#endif
