/* What the kernel shows, without a call: at UVPT the entries of the program's own pages, at UPAGES how often a frame is
   named, at UENVS the environments. It walks all three, and prints what is mapped and who is live. */
#include "lib.h"

/* a page that stands in two places, and is written in one */
#define WRITTEN 0x00A00000u
#define AGAIN 0x00A01000u

static void tell(const char *what, uint32_t va, pte_t entry)
{
    cprintf("%s %08x  frame %3d  count %d  %c%c%c%c%c %x\n", what, va, PTE_FRAME(entry), pages[PTE_FRAME(entry)].pp_ref,
        entry & PTE_U ? 'u' : '-', entry & PTE_W ? 'w' : '-', entry & PTE_A ? 'a' : '-', entry & PTE_D ? 'd' : '-',
        entry & PTE_P ? 'p' : '-', entry & PTE_AVAIL);
}

void umain(int argc, char **argv)
{
    int r;

    if ((r = sys_page_alloc(0, (void *)WRITTEN, PTE_P | PTE_U | PTE_W)) < 0)
        panic("sys_page_alloc: %e", r);
    *(volatile uint32_t *)WRITTEN = 1;
    if ((r = sys_page_map(0, (void *)WRITTEN, 0, (void *)AGAIN, PTE_P | PTE_U | PTE_SHARE)) < 0)
        panic("sys_page_map: %e", r);

    for (uint32_t region = 0; region < NPDENTRIES; region++) {
        if (!(uvpd[region] & PTE_P))
            continue;
        tell("table", region << PDXSHIFT, uvpd[region]);
        if (region >= PDX(UTOP)) /* a window: one page of it is like another */
            continue;
        for (pn_t pn = region * NPTENTRIES; pn < (region + 1) * NPTENTRIES; pn++)
            if (uvpt[pn] & PTE_P)
                tell("page ", (uint32_t)PGADDR(pn), uvpt[pn]);
    }

    for (int k = 0; k < NENV; k++)
        if (envs[k].env_status != ENV_FREE)
            cprintf("environment %08x  parent %08x  status %d  directory in frame %d\n", envs[k].env_id,
                envs[k].env_parent_id, envs[k].env_status, envs[k].env_pgdir);
}
