/* New pages: each has zeros, also where another page stood; what is written to one that may be written stays there; and
   they may stand at the ends of each range of the fence. */
#include "mmu.h"
#include "print.h"
#include "service.h"

static uint32_t word_at(uint32_t va)
{
    return *(const volatile uint32_t *)va;
}

static void make(uint32_t va, uint32_t flags)
{
    print("page_new(");
    print_hex(va);
    print(", ");
    print_number(flags);
    print_line(")", page_new(va, flags));
    print_line("it has", word_at(va + PGSIZE - 4));
    if (flags & PAGE_WRITE) {
        *(volatile uint32_t *)(va + PGSIZE - 4) = va + 1;
        print_line("and then", word_at(va + PGSIZE - 4));
    }
}

void umain(int argc, char **argv)
{
    make(0x00900000, PAGE_WRITE);
    make(0x00901000, PAGE_WRITE | PAGE_SHARED);
    make(0x00902000, 0);
    make(0x00903000, PAGE_SHARED);

    /* in the place of those that were written */
    make(0x00900000, PAGE_WRITE);
    make(0x00901000, 0);

    make(0x00200000, PAGE_WRITE);
    make(0x003FF000, PAGE_WRITE);
    make(0xCFFFF000, PAGE_WRITE);
    make(0xD0400000, PAGE_WRITE);
    make(0xEEBFC000, PAGE_WRITE);

    /* those that were not written since have what they had */
    print_line("00900000", word_at(0x00900FFC));
    print_line("00902000", word_at(0x00902FFC));
    print_line("003ff000", word_at(0x003FFFFC));
}
