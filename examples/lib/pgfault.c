/* Page faults that go to a handler of the program's own. (JOS: lib/pgfault.c) */
#include "lib.h"

/* which one; pfentry.S calls it */
void (*_pgfault_handler)(struct UTrapframe *utf);

/* The first handler needs a stack of its own, and that the kernel is told of pfentry.S. */
void set_pgfault_handler(void (*handler)(struct UTrapframe *utf))
{
    int r;

    if (!_pgfault_handler) {
        if ((r = sys_page_alloc(0, (void *)(UXSTACKTOP - PGSIZE), PTE_P | PTE_U | PTE_W)) < 0)
            panic("sys_page_alloc: %e", r);
        if ((r = sys_env_set_pgfault_upcall(0, _pgfault_upcall)) < 0)
            panic("sys_env_set_pgfault_upcall: %e", r);
    }
    _pgfault_handler = handler;
}
