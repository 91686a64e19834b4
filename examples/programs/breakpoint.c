/* The breakpoint: trap 3. MIT's kernel enters its monitor here; this one ends the environment. (MIT 6.828, lab 3) */
/* Answer: it is told for the address behind the instruction. */
#include "lib.h"

void umain(int argc, char **argv)
{
    breakpoint();
    cprintf("not reached\n");
}
