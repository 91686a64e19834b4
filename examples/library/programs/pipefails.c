/* Where a frame is wanting pipe answers fffffffc, which is 4 (E_NO_MEM), negated, and gives back the pages that it had; and so do read and write on
   an end, which want a page. stat wants none. */
#include "mmu.h"
#include "print.h"
#include "service.h"

#define FIRST 0x10000000u

static struct pipe ends;
static char buffer[4];
static uint32_t va = FIRST;

static void give_back(void)
{
    va -= PGSIZE;
    page_drop(va);
}

static void tell(const char *what)
{
    static struct stat told;

    print(what);
    print_line(": write", write(ends.writing, (uint32_t) "x", 1));
    print_line("read of none", read(ends.reading, (uint32_t)buffer, 0));
    print_line("stat", stat(ends.reading, (uint32_t)&told));
    if (told.size == 0)
        return;
    print_line("read", read(ends.reading, (uint32_t)buffer, sizeof buffer));
}

void umain(int argc, char **argv)
{
    while (page_new(va, PAGE_WRITE) == 0)
        va += PGSIZE;
    for (uint32_t free = 0; free <= 3; free++) {
        print_line("free", free);
        print_line("pipe", pipe(&ends));
        if (free == 3)
            break;
        print_line("close of 2", close(2));
        print_line("close of 3", close(3));
        give_back();
    }
    tell("none is free");
    give_back();
    tell("one is free");
    give_back();
    tell("two are free");
}
