/* A child that spins for ever, and never yields. The timer takes the processor from it all the same, and so its parent
   can end it. (MIT 6.828, lab 4) */
#include "lib.h"

void umain(int argc, char **argv)
{
    envid_t parent = sys_getenvid();

    cprintf("%08x forks\n", parent);
    envid_t child = fork();
    if (child < 0)
        panic("fork: %e", child);
    if (child == 0) {
        cprintf("%08x spins\n", sys_getenvid());
        ipc_send(parent, 0, NULL, 0);
        for (;;)
            ;
    }

    ipc_recv_from(child, NULL, NULL);
    uint32_t runs = envs[ENVX(child)].env_runs;
    while (envs[ENVX(child)].env_runs - runs < 3) /* turns of which it spends each step */
        sys_yield();
    cprintf("%08x runs, though %08x spins\n", parent, child);
    sys_env_destroy(child);
    cprintf("%08x has ended %08x\n", parent, child);
}
