/* Two environments raise one word that both of them have, ten times each, without a lock. `count++` is three steps: read,
   add, write. Where a turn ends between the read and the write, and the other raises the word meanwhile, its updates are
   lost: none under the schedule race-kept, and ten under race-lost, whose first turn is two steps shorter. */
/* Answer: under race-least all but two are lost. */
#include "lib.h"

#define ROUNDS 10

/* in a page that fork leaves shared */
#define SHARED ((volatile uint32_t *)0x00A00000)

/* the three steps in the open; gcc makes the same of `(*word)++`, for the word is volatile */
static void raise(volatile uint32_t *word)
{
    uint32_t value = *word;
    value++;
    *word = value;
}

void umain(int argc, char **argv)
{
    int r;

    if ((r = sys_page_alloc(0, (void *)SHARED, PTE_P | PTE_U | PTE_W | PTE_SHARE)) < 0)
        panic("sys_page_alloc: %e", r);
    envid_t child = fork();
    if (child < 0)
        panic("fork: %e", child);

    for (int k = 0; k < ROUNDS; k++)
        raise(SHARED);

    if (child == 0)
        return;
    wait(child);
    cprintf("%08x: %d updates were made, %d are there\n", sys_getenvid(), 2 * ROUNDS, *SHARED);
}
