/* Asks the kernel to print what stands at 0xF0100000, where MIT's kernel has its own code. Here nothing is there, and
   there or not, a program gets no byte that it may not read itself. (MIT 6.828, lab 3) */
#include "lib.h"

void umain(int argc, char **argv)
{
    sys_cputs((const char *)0xF0100000, 100);
    cprintf("not reached\n");
}
