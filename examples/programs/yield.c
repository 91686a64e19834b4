/* Yields its turn five times. Of several of it each has the processor once in a round, behind its neighbour. (MIT 6.828,
   lab 4) */
#include "lib.h"

void umain(int argc, char **argv)
{
    envid_t me = sys_getenvid();

    cprintf("environment %08x begins\n", me);
    for (int k = 0; k < 5; k++) {
        sys_yield();
        cprintf("environment %08x, behind yield %d\n", me, k + 1);
    }
    cprintf("environment %08x ends\n", me);
}
