/* Has a handler of page faults that says what the kernel told it, and ends the environment. (MIT 6.828, lab 4) */
#include "lib.h"

static void handler(struct UTrapframe *utf)
{
    cprintf("page fault at %08x, error %x: %s, %s\n", utf->utf_fault_va, utf->utf_err,
        utf->utf_err & FEC_WR ? "a write" : "a read", utf->utf_err & FEC_PR ? "not allowed" : "no page");
    exit();
}

void umain(int argc, char **argv)
{
    set_pgfault_handler(handler);
    *(volatile uint32_t *)0xDEADBEEC = 0;
    cprintf("not reached\n");
}
