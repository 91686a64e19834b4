/* Has a handler that gives a page to each address that is asked for, and writes there which one it was. So a program may
   have memory as it comes to need it. The second text begins two bytes before the end of a page: it wants two pages, and
   the second fault comes within the handler of the first. (MIT 6.828, lab 4) */
#include "lib.h"

static void handler(struct UTrapframe *utf)
{
    uint32_t va = utf->utf_fault_va;
    int r;

    cprintf("no page at %08x\n", va);
    if ((r = sys_page_alloc(0, (void *)ROUNDDOWN(va, PGSIZE), PTE_P | PTE_U | PTE_W)) < 0)
        panic("sys_page_alloc for %08x: %e", va, r);
    snprintf((char *)va, 40, "this was written at %08x", va);
}

void umain(int argc, char **argv)
{
    set_pgfault_handler(handler);
    cprintf("%s\n", (char *)0xDEADB000);
    cprintf("%s\n", (char *)0xCAFEBFFE);
}
