/* A fork that copies each page at once, from outside: the parent gives the child a page, has it at UTEMP too, and copies.
   Then both count, and yield behind each line, so that their lines alternate. (MIT 6.828, lab 4) */
/* Answer: it needs no handler of page faults, and a frame for each page. */
#include "lib.h"

static void copy_page(envid_t child, void *va)
{
    int r;

    if ((r = sys_page_alloc(child, va, PTE_P | PTE_U | PTE_W)) < 0)
        panic("sys_page_alloc: %e", r);
    if ((r = sys_page_map(child, va, 0, (void *)UTEMP, PTE_P | PTE_U | PTE_W)) < 0)
        panic("sys_page_map: %e", r);
    memcpy((void *)UTEMP, va, PGSIZE);
    if ((r = sys_page_unmap(0, (void *)UTEMP)) < 0)
        panic("sys_page_unmap: %e", r);
}

static envid_t dumbfork(void)
{
    int r;

    envid_t envid = sys_exofork();
    if (envid < 0)
        panic("sys_exofork: %e", envid);
    if (envid == 0)
        return 0;

    for (pn_t pn = PGNUM(UTEXT); pn < PGNUM(USTACKTOP); pn++) {
        if (!(uvpd[pn / NPTENTRIES] & PTE_P))
            pn |= NPTENTRIES - 1;
        else if (uvpt[pn] & PTE_P)
            copy_page(envid, PGADDR(pn));
    }
    if ((r = sys_env_set_status(envid, ENV_RUNNABLE)) < 0)
        panic("sys_env_set_status: %e", r);
    return envid;
}

void umain(int argc, char **argv)
{
    envid_t child = dumbfork();
    const char *who = child ? "parent" : "child";

    for (int k = 0; k < (child ? 5 : 10); k++) {
        cprintf("%08x, the %s, counts %d\n", sys_getenvid(), who, k);
        sys_yield();
    }
}
