/* Asks the kernel to print a byte at address 1, where no page is. (MIT 6.828, lab 3) */
/* Answer: that is no page fault: the kernel looks before it reads, and ends the environment with a line. */
#include "lib.h"

void umain(int argc, char **argv)
{
    sys_cputs((const char *)1, 1);
    cprintf("not reached\n");
}
