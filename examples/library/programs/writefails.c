/* A write for which no frame is left is answered -4 (E_NO_MEM), and counted as refused in the note, as is the page_new behind the last
   page: write wants a page for the bytes that it takes, which it gives back when they are printed, and the first time a table for that
   page. Of what is refused nothing is printed. */
#include "mmu.h"
#include "print.h"
#include "service.h"

#define FIRST 0x10000000u

static void tell(const char *what)
{
    static const char text[] = "written\n";

    print_line(what, write(1, (uint32_t)text, sizeof text - 1));
}

void umain(int argc, char **argv)
{
    uint32_t va = FIRST;

    while (page_new(va, PAGE_WRITE) == 0)
        va += PGSIZE;
    tell("no frame is free");
    page_drop(va - PGSIZE);
    tell("one is free");
    page_drop(va - 2 * PGSIZE);
    tell("two are free");
    tell("one is free, and there is a table");
    print_line("page_new", page_new(va - 2 * PGSIZE, PAGE_WRITE));
    tell("no frame is free");
}
