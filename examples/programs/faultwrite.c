/* Writes a word at address 0, where no page is, and has no handler for the fault. (MIT 6.828, lab 3) */
#include "lib.h"

static volatile uint32_t *volatile null; /* so that the compiler does not see it */

void umain(int argc, char **argv)
{
    *null = 0;
    cprintf("not reached\n");
}
