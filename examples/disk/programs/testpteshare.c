/* A page that is shared is the same for a child, whether by fork or by spawn: what that writes there its parent reads. With the word `fork`
   only the first is tried; with `child` it is itself the child by spawn. (MIT 6.828, lab 5: user/testpteshare.c) */
#include "print.h"
#include "service.h"
#include "string.h"

#define SHARED ((char *)0xA0000000)

static const char by_fork[] = "hello, world\n", by_spawn[] = "goodbye, world\n";

static int born(int child)
{
    if (child < 0) {
        print_line("no child", child);
        exit();
    }
    return child;
}

/* behind the end of a child which should have written this */
static void look(const char *who, const char *text)
{
    print(who);
    print(strcmp(SHARED, text) == 0 ? " handles shared pages right\n" : " handles shared pages wrong\n");
}

void umain(int argc, char **argv)
{
    static const char path[] = "/testpteshare";
    static const char *const words[] = { path, "child", 0 };
    int child;

    if (argc > 1 && strcmp(argv[1], "child") == 0) {
        strcpy(SHARED, by_spawn);
        exit();
    }
    page_new((uint32_t)SHARED, PAGE_WRITE | PAGE_SHARED);
    child = born(fork());
    if (child == 0) {
        strcpy(SHARED, by_fork);
        exit();
    }
    wait(child);
    look("fork", by_fork);
    if (argc > 1)
        exit();
    wait(born(spawn((uint32_t)path, (uint32_t)words)));
    look("spawn", by_spawn);
}
