/* A fork that is refused for want of frames, wherever it stands then, leaves nothing of the child. The program takes all
   pages there are, and then gives them back one by one, until fork has enough for a child. Each fork before that is answered
   -4 (E_NO_MEM), and counted as refused in the note, as is the last page_new. The child ends at once, and no page is written
   while it lives: a copy would want a frame, too. */
#include "mmu.h"
#include "print.h"
#include "service.h"

#define FIRST 0x10000000u

void umain(int argc, char **argv)
{
    uint32_t va = FIRST, refused = 0;
    int child, answer = 0;

    /* a first child, so that a page has been copied, for which a table is wanted once */
    child = fork();
    if (child == 0)
        return;
    print_line("the first", child);
    wait(child);

    while (page_new(va, PAGE_WRITE) == 0)
        va += PGSIZE;
    for (;;) {
        child = service(SERVICE_fork, 0, 0, 0);
        if (child == 0)
            service(SERVICE_exit, 0, 0, 0);
        if (child > 0)
            break;
        answer = child;
        refused++;
        va -= PGSIZE;
        page_drop(va);
    }
    service(SERVICE_wait, child, 0, 0);
    print_number(refused);
    print_line(" are refused with", answer);
    print_line("the second", child);
}
