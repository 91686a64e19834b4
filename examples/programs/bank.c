/* Two environments move money between two accounts in a page that both of them have. Each takes a lock by XCHG first,
   which is one step: it puts 1 in the lock and tells what stood there, and who finds 0 has it. So no update is lost under
   any schedule, and the sum stays. (race shows what happens without) */
#include "lib.h"

#define ROUNDS 10

struct bank {
    volatile uint32_t lock;
    volatile int accounts[2];
};

/* in a page that fork leaves shared */
#define BANK ((struct bank *)0x00A00000)

static void lock(volatile uint32_t *word)
{
    while (xchg(word, 1) != 0)
        sys_yield();
}

static void unlock(volatile uint32_t *word)
{
    xchg(word, 0);
}

static void transfer(int from, int to, int amount)
{
    lock(&BANK->lock);
    int rest = BANK->accounts[from] - amount;
    int sum = BANK->accounts[to] + amount;
    BANK->accounts[from] = rest;
    BANK->accounts[to] = sum;
    unlock(&BANK->lock);
}

void umain(int argc, char **argv)
{
    int r;

    if ((r = sys_page_alloc(0, (void *)BANK, PTE_P | PTE_U | PTE_W | PTE_SHARE)) < 0)
        panic("sys_page_alloc: %e", r);
    BANK->accounts[0] = 100;
    BANK->accounts[1] = 100;

    envid_t child = fork();
    if (child < 0)
        panic("fork: %e", child);
    for (int k = 0; k < ROUNDS; k++)
        transfer(child == 0, child != 0, child == 0 ? 3 : 5);

    if (child == 0)
        return;
    wait(child);
    cprintf("%08x: accounts %d and %d, together %d\n", sys_getenvid(), BANK->accounts[0], BANK->accounts[1],
        BANK->accounts[0] + BANK->accounts[1]);
}
