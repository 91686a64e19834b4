/* A handler of page faults that raises one itself. The first page is wanted; its handler writes to the second, which is
   not there either, and so the handler runs again, above itself on the exception stack. */
#include "lib.h"

#define FIRST 0x00900004u
#define SECOND 0x00A00008u

static uint32_t depth;

static void handler(struct UTrapframe *utf)
{
    uint32_t va = utf->utf_fault_va;
    int r;

    depth++;
    cprintf("depth %d, not there: %08x\n", depth, va);
    if (va == FIRST)
        *(volatile uint32_t *)SECOND = 22;
    if ((r = sys_page_alloc(0, (void *)ROUNDDOWN(va, PGSIZE), PTE_P | PTE_U | PTE_W)) < 0)
        panic("sys_page_alloc: %e", r);
    cprintf("depth %d, there now: %08x\n", depth, va);
    depth--;
}

void umain(int argc, char **argv)
{
    set_pgfault_handler(handler);
    *(volatile uint32_t *)FIRST = 11;
    cprintf("resumed: %d and %d\n", *(volatile uint32_t *)FIRST, *(volatile uint32_t *)SECOND);
}
