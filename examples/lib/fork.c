/* fork, in the program and not in the kernel. Parent and child have the same pages, and neither may write to one: its
   entry has PTE_COW in the place of PTE_W. Who writes to it takes a page fault, and copies it then. (JOS: lib/fork.c) */
#include "lib.h"

/* A page that is written to, and is marked, is replaced by a copy of itself. */
static void pgfault(struct UTrapframe *utf)
{
    void *va = (void *)ROUNDDOWN(utf->utf_fault_va, PGSIZE);
    int r;

    if ((utf->utf_err & (FEC_PR | FEC_WR)) != (FEC_PR | FEC_WR) || !(uvpt[PGNUM(va)] & PTE_COW))
        panic("page fault at va %08x err %x ip %08x", utf->utf_fault_va, utf->utf_err, utf->utf_eip);

    /* the copy is made at another place, and put in its own when it is whole */
    if ((r = sys_page_alloc(0, (void *)PFTEMP, PTE_P | PTE_U | PTE_W)) < 0)
        panic("sys_page_alloc: %e", r);
    memcpy((void *)PFTEMP, va, PGSIZE);
    if ((r = sys_page_map(0, (void *)PFTEMP, 0, va, PTE_P | PTE_U | PTE_W)) < 0)
        panic("sys_page_map: %e", r);
    if ((r = sys_page_unmap(0, (void *)PFTEMP)) < 0)
        panic("sys_page_unmap: %e", r);
}

static void map(envid_t envid, pn_t pn, int perm)
{
    void *va = PGADDR(pn);
    int r;

    if ((r = sys_page_map(0, va, envid, va, perm)) < 0)
        panic("sys_page_map: %e", r);
}

/* Gives the child a page of the parent's. One that may be written is marked in both spaces, in the child's first. */
/* Answer: if the parent's entry were changed first, a write of the parent's that comes in between, as to its stack, would
   make the page writable again, and the child, which has no copy, would see what is written later. */
static void duppage(envid_t envid, pn_t pn, bool shared)
{
    volatile uint32_t *va = PGADDR(pn);

    /* what is to be one page for both may be copied no more: by this write it is copied now */
    if (shared && (uvpt[pn] & PTE_COW))
        *va = *va;

    int perm = uvpt[pn] & PTE_SYSCALL;
    if (shared || (perm & PTE_SHARE) || !(perm & (PTE_W | PTE_COW))) {
        map(envid, pn, perm);
    } else {
        perm = (perm & ~PTE_W) | PTE_COW;
        map(envid, pn, perm);
        map(0, pn, perm);
    }
}

/* A page of the stack, from ESP's on. */
static bool is_stack(pn_t pn)
{
    return pn >= PGNUM(read_esp()) && pn < PGNUM(USTACKTOP);
}

/* The exception stack is not the parent's: a handler runs on it while it copies. */
static envid_t clone(bool sharing)
{
    int r;

    set_pgfault_handler(pgfault);
    envid_t envid = sys_exofork();
    if (envid <= 0) /* an error, or this is the child */
        return envid;

    for (pn_t pn = 0; pn < PGNUM(USTACKTOP); pn++) {
        /* without a table there is no entry to look at */
        if (!(uvpd[pn / NPTENTRIES] & PTE_P))
            pn |= NPTENTRIES - 1;
        else if (uvpt[pn] & PTE_P)
            duppage(envid, pn, sharing && !is_stack(pn));
    }

    if ((r = sys_page_alloc(envid, (void *)(UXSTACKTOP - PGSIZE), PTE_P | PTE_U | PTE_W)) < 0)
        panic("sys_page_alloc: %e", r);
    if ((r = sys_env_set_pgfault_upcall(envid, _pgfault_upcall)) < 0)
        panic("sys_env_set_pgfault_upcall: %e", r);
    if ((r = sys_env_set_status(envid, ENV_RUNNABLE)) < 0)
        panic("sys_env_set_status: %e", r);
    return envid;
}

envid_t fork(void)
{
    return clone(false);
}

envid_t sfork(void)
{
    return clone(true);
}
