/* Many environments at once: 20 children, of which each counts in memory of its own and yields in between. Whatever the
   schedule does, no count is lost, for no two of them count in one place. (MIT 6.828, lab 4) */
#include "lib.h"

#define CHILDREN 20
#define ROUNDS 10
#define COUNTS 100

static volatile uint32_t counter;

void umain(int argc, char **argv)
{
    envid_t parent = sys_getenvid();
    int k;

    for (k = 0; k < CHILDREN; k++) {
        envid_t child = fork();
        if (child < 0)
            panic("fork: %e", child);
        if (child == 0)
            break;
    }
    if (k == CHILDREN) {
        cprintf("%08x made %d children\n", parent, CHILDREN);
        return;
    }

    wait(parent); /* then all children are there */
    for (int round = 0; round < ROUNDS; round++) {
        sys_yield();
        for (int count = 0; count < COUNTS; count++)
            counter++;
    }
    if (counter != ROUNDS * COUNTS)
        panic("counted to %d", counter);
    cprintf("%08x counted to %d\n", sys_getenvid(), counter);
}
