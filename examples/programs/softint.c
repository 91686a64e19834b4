/* Raises interrupt 14, the number of the page fault, by INT. (MIT 6.828, lab 3) */
/* Answer: a user may raise the breakpoint and the system call alone, so it is trap 13, with error code 8 * 14 + 2. */
#include "lib.h"

void umain(int argc, char **argv)
{
    __asm__ volatile("int $14");
    cprintf("not reached\n");
}
