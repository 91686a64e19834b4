/* The lost wake-up. The child looks whether there is work, and if not, makes itself NOT_RUNNABLE until its parent wakes
   it. The parent leaves the work and then wakes the child. If the child's turn ends between its look and its sleep, and
   the parent does both meanwhile, nobody wakes the child: the run ends `stuck`, as under the schedule wakeup-lost. */
/* Answer: a message loses nothing, for who does not wait yet is not sent one. */
#include "lib.h"

/* in a page that fork leaves shared */
#define WORK ((volatile uint32_t *)0x00A00000)

void umain(int argc, char **argv)
{
    int r;

    if ((r = sys_page_alloc(0, (void *)WORK, PTE_P | PTE_U | PTE_W | PTE_SHARE)) < 0)
        panic("sys_page_alloc: %e", r);
    envid_t child = fork();
    if (child < 0)
        panic("fork: %e", child);

    if (child == 0) {
        cprintf("%08x looks for work\n", sys_getenvid());
        while (*WORK == 0)
            sys_env_set_status(0, ENV_NOT_RUNNABLE);
        cprintf("%08x finds work\n", sys_getenvid());
    } else {
        cprintf("%08x leaves work, and wakes %08x\n", sys_getenvid(), child);
        *WORK = 1;
        sys_env_set_status(child, ENV_RUNNABLE);
    }
}
