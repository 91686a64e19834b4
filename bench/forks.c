/* Makes children under the library, one after another, for forks.sh:

       forks CHILDREN PAGES CHILD PARENT BEFORE

   The program has so many pages of its own beside its stack, and has written each. Each child writes a word into each of these
   pages, CHILD times over, and ends; the parent waits for that, and then does the same, PARENT times over. The page of the stack is
   not copied meanwhile. BEFORE other children are made first, and with each of them that page is copied twice. */
#include "mmu.h"
#include "service.h"

/* the region of 4 MB in which the code is */
#define FIRST 0x00900000u

static uint32_t number_of(const char *text)
{
    uint32_t number = 0;

    while (*text)
        number = number * 10 + (*text++ - '0');
    return number;
}

ALWAYS_INLINE void write_pages(uint32_t end, uint32_t times)
{
    for (; times > 0; times--)
        for (uint32_t va = FIRST; va < end; va += PGSIZE)
            *(volatile uint32_t *)va = times;
}

/* a service that is given one word at most, so that gcc has registers for all else */
ALWAYS_INLINE uint32_t ask(uint32_t number, uint32_t edx)
{
    uint32_t answer;

    __asm__ volatile("int %1" : "=a"(answer) : "i"(T_SERVICE), "a"(number), "d"(edx) : "memory", "cc");
    return answer;
}

/* Nobody writes on the stack here between a fork and the end of its child; forks.sh sees by the upcalls that it is so. */
static __attribute__((noinline)) void make_children(uint32_t children, uint32_t end, uint32_t by_child, uint32_t by_parent)
{
    for (; children > 0; children--) {
        uint32_t child = ask(SERVICE_fork, 0);

        if (child == 0) {
            write_pages(end, by_child);
            ask(SERVICE_exit, 0);
        }
        ask(SERVICE_wait, child);
        write_pages(end, by_parent);
    }
}

void umain(int argc, char **argv)
{
    uint32_t end = FIRST + number_of(argv[2]) * PGSIZE;

    for (uint32_t va = FIRST; va < end; va += PGSIZE)
        page_new(va, PAGE_WRITE);
    write_pages(end, 1);
    for (uint32_t before = number_of(argv[5]); before > 0; before--) {
        int child = fork();

        if (child == 0)
            exit();
        wait(child);
    }
    make_children(number_of(argv[1]), end, number_of(argv[3]), number_of(argv[4]));
}
