/* A program has the pages that the one that starts it shares, as they are, in the place of its own: where it writes, both see it. The other pages
   it has not. */
#include "mmu.h"
#include "print.h"
#include "service.h"

#define SHARED 0x00900000
#define PRIVATE 0x00A00000
#define READONLY 0x00B00000
#define FAR 0xCFFFF000

static void start(char *what, char *va)
{
    char *argv[] = {"spawned", what, va, 0};
    int child;

    print(va);
    print("\n");
    child = spawn((uint32_t)argv[0], (uint32_t)argv);
    if (child < 0)
        print_line("spawn", child);
    wait(child);
}

void umain(int argc, char **argv)
{
    page_new(SHARED, PAGE_WRITE | PAGE_SHARED);
    page_new(FAR, PAGE_WRITE | PAGE_SHARED);
    page_new(PRIVATE, PAGE_WRITE);
    page_new(READONLY, PAGE_SHARED);
    *(volatile uint32_t *)SHARED = 0x10;
    *(volatile uint32_t *)(FAR + PGSIZE - 4) = 0xFF;
    *(volatile uint32_t *)PRIVATE = 0x20;
    start("page", "900000");
    start("page", "900000");
    start("page", "cffffffc");
    start("page", "a00000");
    start("page", "b00000");
    print_line("the page that is shared has", *(volatile uint32_t *)SHARED);
    print_line("the last one", *(volatile uint32_t *)(FAR + PGSIZE - 4));
    print_line("the one that is not", *(volatile uint32_t *)PRIVATE);
}
