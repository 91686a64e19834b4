/* Reads a word at address 0, where no page is: a page fault, by which the environment ends, since it has no handler. (MIT
   6.828, lab 3) */
#include "lib.h"

static const volatile uint32_t *volatile null; /* so that the compiler does not see it */

void umain(int argc, char **argv)
{
    cprintf("at address 0 is %x\n", *null);
}
