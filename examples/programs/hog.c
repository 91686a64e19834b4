/* Takes pages until the kernel has none left, which it says by the answer -4 (E_NO_MEM), and nothing else happens: the
   program runs on, and when it gives a page back it can have one again. Each refusal is counted in the run's note. How
   many pages there are is said by --frames. */
#include "lib.h"

#define FIRST 0x10000000u

void umain(int argc, char **argv)
{
    uint32_t va = FIRST;
    int r;

    while ((r = sys_page_alloc(0, (void *)va, PTE_P | PTE_U | PTE_W)) == 0)
        va += PGSIZE;
    cprintf("%d pages, and then %d: %e\n", PGNUM(va - FIRST), r, r);

    sys_page_unmap(0, (void *)FIRST);
    cprintf("one is given back, and then the answers are %d", sys_page_alloc(0, (void *)FIRST, PTE_P | PTE_U | PTE_W));
    cprintf(" and %d\n", sys_page_alloc(0, (void *)va, PTE_P | PTE_U | PTE_W));
}
