/* A trap ends who raises it, with its line, and nobody else: first the child and then, behind another fork, the parent.
   The other waits for that and goes on with all that it has, and does the same with the next trap. */
#include "print.h"
#include "service.h"

#define OWN 0x00900000
#define ABSENT 0x00A00000
#define OUTSIDE 0x00400000

enum { READS, WRITES, DROPS, LEAVES, DIVIDES, BREAKS, CALLS, KINDS };

static const uint32_t constant = 1;

static void __attribute__((noinline)) raise(uint32_t kind)
{
    switch (kind) {
    case READS: /* where no page is */
        (void)*(volatile uint32_t *)ABSENT;
        break;
    case WRITES: /* a page that may not be written */
        *(volatile uint32_t *)&constant = 2;
        break;
    case DROPS: /* a page that the other has still */
        page_drop(OWN);
        (void)*(volatile uint32_t *)OWN;
        break;
    case LEAVES: /* the fence */
        (void)*(volatile uint32_t *)OUTSIDE;
        break;
    case DIVIDES:
        __asm__ volatile("xorl %%ecx, %%ecx; divl %%ecx" : : : "eax", "ecx", "edx", "cc");
        break;
    case BREAKS:
        breakpoint();
        break;
    case CALLS: /* the kernel */
        __asm__ volatile("int $0x30");
        break;
    }
    print("not reached\n");
}

static void go_on(const char *who)
{
    print_hex(getid());
    print(who);
    print_line(" goes on, and has", *(volatile uint32_t *)OWN);
}

void umain(int argc, char **argv)
{
    uint32_t parent;
    int child;

    page_new(OWN, PAGE_WRITE);
    *(volatile uint32_t *)OWN = 0x12345678;
    for (uint32_t kind = 0; kind < KINDS; kind++) {
        child = fork();
        if (child == 0)
            raise(kind);
        wait(child);
        go_on(", the parent,");

        parent = getid();
        child = fork();
        if (child != 0)
            raise(kind);
        wait(parent);
        go_on(", the child,");
    }
}
