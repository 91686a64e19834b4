/* Parent and child send each other a number, raised by one each time, until one of them has ten. Who has a number says so
   before it sends the next, so the lines come in one order under every schedule. (MIT 6.828, lab 4) */
#include "lib.h"

void umain(int argc, char **argv)
{
    envid_t child = fork();
    if (child < 0)
        panic("fork: %e", child);
    if (child > 0) {
        cprintf("%08x sends 0 to %08x\n", sys_getenvid(), child);
        ipc_send(child, 0, NULL, 0);
    }

    uint32_t value;
    do {
        envid_t from;
        value = ipc_recv(&from, NULL, NULL);
        cprintf("%08x has %d, sent by %08x\n", sys_getenvid(), value, from);
        if (value < 10)
            ipc_send(from, value + 1, NULL, 0);
    } while (value + 1 < 10);
}
