/* As pingpong, but the two share all their memory but the stack: each raises one word `value` that both of them have, and
   the messages only say whose turn it is. (MIT 6.828, lab 4, where sfork is left as a challenge) */
#include "lib.h"

static volatile uint32_t value;

void umain(int argc, char **argv)
{
    envid_t child = sfork();
    if (child < 0)
        panic("sfork: %e", child);
    if (child > 0) {
        cprintf("%08x sends to %08x, value %d\n", sys_getenvid(), child, value);
        ipc_send(child, 0, NULL, 0);
    }

    uint32_t got;
    do {
        envid_t from;
        ipc_recv(&from, NULL, NULL);
        got = value;
        cprintf("%08x finds value %d, and raises it for %08x\n", sys_getenvid(), got, from);
        value = got + 1;
        if (got < 10)
            ipc_send(from, 0, NULL, 0);
    } while (got + 1 < 10);
}
