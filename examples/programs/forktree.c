/* A tree of forks, three levels deep: each environment makes two children, whose names are its own with a 0 and with a 1.
   All 15 names come once under every schedule, and their order is the schedule's. (MIT 6.828, lab 4) */
#include "lib.h"

#define DEPTH 3

static void forktree(const char *name)
{
    char child[DEPTH + 1];

    cprintf("%08x is '%s'\n", sys_getenvid(), name);
    if (strlen(name) == DEPTH)
        return;
    for (char digit = '0'; digit <= '1'; digit++) {
        snprintf(child, sizeof child, "%s%c", name, digit);
        envid_t envid = fork();
        if (envid < 0)
            panic("fork: %e", envid);
        if (envid == 0) {
            forktree(child);
            exit();
        }
    }
}

void umain(int argc, char **argv)
{
    forktree("");
}
