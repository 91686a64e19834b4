/* stat into a shared page, and over its end into one that may not be written, where a child ends by a page fault: the bytes before
   it are in the shared page, where the parent finds them. With a word there is no page behind the shared one. */
#include "mmu.h"
#include "print.h"
#include "service.h"

#define SHARED 0x00900000
#define BEHIND (SHARED + PGSIZE)
#define PLACE (BEHIND - 6)

void umain(int argc, char **argv)
{
    int child;

    print_line("page_new", page_new(SHARED, PAGE_WRITE | PAGE_SHARED));
    if (argc == 1)
        print_line("page_new", page_new(BEHIND, 0));
    child = fork();
    if (child == 0) {
        stat(1, PLACE);
        print("not reached\n");
        exit();
    }
    wait(child);
    print("the page ends with ");
    write(1, PLACE, 6);
    print("\n");
}
