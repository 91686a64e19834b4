/* Divides by zero: trap 0, which no program can handle. (Of 1 / zero gcc makes comparisons, and no division.) (MIT 6.828,
   lab 3) */
#include "lib.h"

static volatile int zero; /* so that the compiler does not see it */

void umain(int argc, char **argv)
{
    cprintf("6 / 0 is %d\n", 6 / zero);
}
