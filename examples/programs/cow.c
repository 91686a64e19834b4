/* Copy on write. After a fork both have one page: its entry is marked, and its frame is named twice. The first write of
   each is a page fault, by which the writer has a copy of its own. Run it with --trace to see the faults. */
/* Answer: of the two the last gets a copy too, though it might keep the page: nobody tells it that it is the last. */
#include "lib.h"

/* a page of its own, so that no other write makes the copy */
static volatile uint32_t words[PGSIZE / 4] __attribute__((aligned(4096)));

static void tell(const char *when)
{
    pte_t entry = uvpt[PGNUM(words)];

    cprintf("%08x, %s: words %d %d %d; the page is %s, its frame has count %d\n", sys_getenvid(), when, words[0], words[1],
        words[2], entry & PTE_COW ? "marked" : "its own", pages[PTE_FRAME(entry)].pp_ref);
}

void umain(int argc, char **argv)
{
    words[0] = 1;
    tell("before the fork");

    envid_t child = fork();
    if (child < 0)
        panic("fork: %e", child);
    if (child == 0) {
        tell("the child, before its write");
        words[1] = 2;
        tell("the child, behind it");
        return;
    }
    wait(child); /* so that the lines come in one order under every schedule */
    tell("when the child has ended");
    words[2] = 3;
    tell("behind its write");
}
