/* The breakpoint: trap 3, which is told for the address behind the instruction, and ends the environment. */
#include "print.h"
#include "service.h"

void umain(int argc, char **argv)
{
    print("breaks\n");
    breakpoint();
    print("not reached\n");
}
