/* The console. (JOS: inc/stdio.h) */
#ifndef INC_STDIO_H
#define INC_STDIO_H

#include <stdarg.h>

#include "types.h"

/* Print a text. It has the conversions

       %d %i %u %o %x   numbers; with `l` a word still, with `ll` 64 bits
       %p               an address: 0x and eight digits
       %c %s            a byte, and a string
       %e               the name of an error: of 4 and of -4 it is `out of memory`
       %%               a %

   and between the % and the letter, in this order, each of which may be missing: flags, the least number of bytes, and
   behind a `.` of a string the most bytes and of a number the least digits; `*` in the place of either is a number
   that is handed over. The flags are `-`, blanks stand behind; `0`, zeros stand in front of a number; `#`, 0x
   stands in front of %x and 0 in front of %o, and of %s and %c what cannot be printed is `?`. What is not known is
   shown as it stands.

   A text of up to 256 bytes is one system call, so no turn ends in the midst of it. They answer the number of bytes.
   `printf` is another name: on the bare kernel there are no files to print to. */
int cprintf(const char *fmt, ...);
int vcprintf(const char *fmt, va_list ap);
#define printf cprintf

/* The same into memory: at most `n` bytes, with the 0 that ends them. Answers how many there are without that. */
int snprintf(char *buf, size_t n, const char *fmt, ...);
int vsnprintf(char *buf, size_t n, const char *fmt, va_list ap);

void cputchar(int c);

/* the next byte of the input, or 4 (Ctrl-D), for ever, where there is none */
int getchar(void);

#endif
