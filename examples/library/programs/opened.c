/* A file that anybody has open is not removed: fffffffd is 3 (E_INVAL), negated. It is open as long as an environment has a descriptor of it, and
   no longer, however that goes. A file that is removed leaves its record to the next one that is made. */
#include "print.h"
#include "service.h"

#define SHARED 0x00900000
#define READY (*(volatile uint32_t *)SHARED)

static void removed(const char *when)
{
    print_line(when, remove((uint32_t) "parent"));
}

static int born(void)
{
    int child = fork();

    if (child < 0) {
        print_line("fork", child);
        exit();
    }
    return child;
}

static void made(const char *path)
{
    int fd = open((uint32_t)path, O_RDWR | O_CREAT | O_EXCL);

    print_line(path, fd);
    close(fd);
}

void umain(int argc, char **argv)
{
    int fd, child;

    page_new(SHARED, PAGE_WRITE | PAGE_SHARED);
    fd = open((uint32_t) "parent", O_RDONLY);
    removed("open");
    dup(fd, 20);
    close(fd);
    removed("open by the copy");
    child = born();
    if (child == 0) {
        while (READY == 0)
            yield();
        if (argc > 1)
            *(volatile uint32_t *)0x30000000 = 1;
        exit();
    }
    close(20);
    removed("open in the child");
    print_line("another", remove((uint32_t) "child"));
    READY = 1;
    wait(child);
    made("parent");
    removed("open nowhere");
    removed("once more");
    made("second");
    made("first");
    print_line("a bin", remove((uint32_t) "last"));
    made("third");
}
