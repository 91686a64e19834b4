/* A fork with so many frames as --frames gives, from the least number with which a run begins to the first with which nothing
   is refused. The program takes 226 pages, behind which no frame is left of the least number, and so many as it is raised by
   of any other. With one more than the least number there is one for the child's directory, then for its tables, one of each
   of four regions, of which the descriptors have one, and then for the stack of its handler: with less than these six fork is answered
   -4 (E_NO_MEM). Behind
   it the child's first copy wants two, a page and a table for the place where copies are made, and its second copy one: where
   there is none, the write ends the child. The parent writes nothing until the child has ended, and so has what was the
   child's for its own copies. */
#include "mmu.h"
#include "print.h"
#include "service.h"

#define FIRST 0x10000000
#define PAGES 226

static volatile uint32_t datum = 1;

static void __attribute__((noinline)) tell(const char *who)
{
    datum++;
    print_line(who, datum);
}

void umain(int argc, char **argv)
{
    int child, answer = 0;

    for (uint32_t k = 0; k < PAGES && answer == 0; k++)
        answer = page_new(FIRST + k * PGSIZE, PAGE_WRITE);

    child = service(SERVICE_fork, 0, 0, 0);
    if (child == 0) {
        tell("the child has");
        return;
    }
    service(SERVICE_wait, child, 0, 0);
    tell("the parent has");
    print_line("page_new", answer);
    print_line("fork", child);
}
