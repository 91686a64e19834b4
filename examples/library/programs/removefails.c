/* A removal for which no frame is left is answered -4 (E_NO_MEM), and counted as refused in the note, as is the page_new behind the last
   page: remove wants a page for its path, and the first time a table for that page, and the file server wants a page for each block, and
   the first time a table. One page for blocks is enough: it is given up for each other block, and each time one is refused before. What was
   changed there is written to the disk then. */
#include "mmu.h"
#include "print.h"
#include "service.h"

#define FIRST 0x10000000u

static void tell(const char *what, const char *path)
{
    print_line(what, remove((uint32_t)path));
}

void umain(int argc, char **argv)
{
    uint32_t va = FIRST;

    while (page_new(va, PAGE_WRITE) == 0)
        va += PGSIZE;
    tell("no frame is free", "short");
    page_drop(va -= PGSIZE);
    tell("one is free", "short");
    page_drop(va -= PGSIZE);
    tell("two are free", "short");
    page_drop(va -= PGSIZE);
    tell("two are free, and there is a table for the path", "short");
    page_drop(va -= PGSIZE);
    tell("three are free", "short");
    tell("there is a page for blocks", "none");
    tell("there is a page for blocks", "short");
}
