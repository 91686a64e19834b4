/* 1,024 files may be open at once: children open 30 each and keep them until their parent tells them to end, and the last one opens what is left. What
   they have from a fork is one with their parent's. fffffff6 is 10 (E_MAX_OPEN), negated, whatever the path; and a place that nobody has any more
   is taken again. */
#include "print.h"
#include "service.h"
#include "string.h"

#define SHARED 0x00900000
#define OPENED (*(volatile uint32_t *)SHARED)
#define MAY_END (*(volatile uint32_t *)(SHARED + 4))
#define PLACES 1024
#define OF_ONE 29 /* beside the console's two descriptors and the parent's file */

static int opened(const char *path)
{
    return open((uint32_t)path, O_RDONLY);
}

static void in_child(void)
{
    uint32_t wanted = PLACES - OPENED < OF_ONE ? PLACES - OPENED : OF_ONE;

    for (uint32_t k = 0; k < wanted; k++)
        if (opened("short") < 0)
            print_line("not opened", OPENED + k);
    OPENED += wanted;
    while (!MAY_END)
        yield();
    exit();
}

void umain(int argc, char **argv)
{
    static int children[PLACES / OF_ONE + 1];
    static char name[129];
    uint32_t count = 0, before;
    int fd;

    page_new(SHARED, PAGE_WRITE | PAGE_SHARED);
    fd = opened("short");
    print_line("opened", fd);
    for (OPENED = 1; OPENED < PLACES; count++) {
        before = OPENED;
        children[count] = fork();
        if (children[count] < 0) {
            print_line("fork", children[count]);
            exit();
        }
        if (children[count] == 0)
            in_child();
        while (OPENED == before)
            yield();
    }
    print_line("children", count);
    print_line("are open", OPENED);
    print_line("one more", opened("short"));
    print_line("one more, missing", opened("missing"));
    print_line("one more, a directory", opened("/"));
    memset(name, 'x', sizeof name - 1);
    print_line("one more, a name that is too long", opened(name));
    print_line("dup", dup(fd, 9));
    close(fd);
    print_line("one more, behind a close", opened("short"));
    close(9);
    print_line("one more, behind both", opened("short"));
    MAY_END = 1;
    for (uint32_t k = 0; k < count; k++)
        wait(children[k]);
    print_line("one more, behind their ends", opened("short"));
}
