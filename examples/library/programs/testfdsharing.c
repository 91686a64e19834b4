/* A descriptor that parent and child have from a fork has one place of the next byte for both, and so has one that dup has made; two
   opens have two. (MIT 6.828, lab 5: user/testfdsharing.c) */
#include "print.h"
#include "service.h"

#define SHARED 0x00900000
#define READY (*(volatile uint32_t *)SHARED)

static char buffer[64];

static void tell(const char *who, uint32_t fd, uint32_t count)
{
    int came = read(fd, (uint32_t)buffer, count);

    print(who);
    print(" reads ");
    if (came < 0)
        print_hex(came);
    else
        cputs((uint32_t)buffer, came);
    print("\n");
}

/* The child reads while its parent waits for it, or they read by turns. */
static void of_one(uint32_t fd)
{
    int child = fork();

    if (child < 0) {
        print_line("fork", child);
        exit();
    }
    if (child == 0) {
        tell("the child", fd, 5);
        print_line("the child's seek", seek(fd, 12));
        tell("the child", fd, 3);
        print_line("the child's close", close(fd));
        exit();
    }
    wait(child);
    tell("the parent", fd, 7);
}

static void by_turns(uint32_t fd)
{
    int child = fork();

    if (child < 0) {
        print_line("fork", child);
        exit();
    }
    for (uint32_t k = 0; k < 4; k++) {
        while (READY % 2 != (child == 0))
            yield();
        tell(child == 0 ? "the child" : "the parent", fd, 2);
        READY++;
    }
    if (child == 0)
        exit();
    wait(child);
}

void umain(int argc, char **argv)
{
    int one = open((uint32_t) "motd", O_RDONLY), two = open((uint32_t) "motd", O_RDWR);

    page_new(SHARED, PAGE_WRITE | PAGE_SHARED);
    print_line("opened", one);
    print_line("opened", two);
    tell("the parent", one, 4);
    tell("the parent, by the other", two, 2);
    of_one(one);
    tell("the parent, by the other", two, 2);
    print_line("dup", dup(one, 9));
    seek(9, 8);
    tell("the parent", one, 2);
    tell("the parent, by the copy", 9, 2);
    close(one);
    tell("the parent, by the closed one", one, 2);
    tell("the parent, by the copy", 9, 2);

    seek(two, 0);
    by_turns(two);
    print_line("write by one", write(two, (uint32_t) "WRITTEN", 7));
    seek(9, 16);
    tell("by the other", 9, 7);
}
