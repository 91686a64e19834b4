/* Parent and child raise a word of a page that they share, ten times each. That is three steps: read, add, write. Where a
   turn ends between the read and the write, and the other raises the word meanwhile, its updates are lost, as under the schedule
   library-lost. With a word it takes a lock first, by XCHG, which is one step: then there are 20 under every schedule. */
/* Answer: of 20 there are 20 under the schedule library-kept, 19 under library-lost-one, and ten under library-lost. */
#include "print.h"
#include "service.h"

#define ROUNDS 10
#define COUNT ((volatile uint32_t *)0x00900000)
#define LOCK ((volatile uint32_t *)0x00900004)

/* a call, so that who takes locks writes on its stack under every schedule */
static void __attribute__((noinline)) raise_locked(void)
{
    for (uint32_t k = 0; k < ROUNDS; k++) {
        while (xchg(LOCK, 1) != 0)
            yield();
        (*COUNT)++;
        xchg(LOCK, 0);
    }
}

void umain(int argc, char **argv)
{
    int child;

    page_new((uint32_t)COUNT, PAGE_WRITE | PAGE_SHARED);
    child = fork();
    if (argc > 1)
        raise_locked();
    else
        for (uint32_t k = 0; k < ROUNDS; k++)
            (*COUNT)++;
    if (child == 0)
        return;
    wait(child);
    print("of ");
    print_number(2 * ROUNDS);
    print(" updates there are ");
    print_number(*COUNT);
    print("\n");
}
