/* Prints a text, and the id of its environment, which the kernel shows at UENVS. (MIT 6.828, lab 3) */
#include "lib.h"

void umain(int argc, char **argv)
{
    cprintf("hello, world\n");
    cprintf("this is environment %08x\n", thisenv->env_id);
}
