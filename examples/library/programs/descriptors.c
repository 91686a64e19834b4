/* Which descriptors are open, by what close and dup answer: those that a program begins with, what dup makes and refuses, and that a
   child has its own, with which it does not change its parent's. With a word the program leaves all descriptors open at its
   end. */
#include "print.h"
#include "service.h"

/* dup of a descriptor onto itself changes nothing, and tells whether it is open */
static int is_open(uint32_t fd)
{
    return dup(fd, fd) == (int)fd;
}

static void tell_open(const char *who)
{
    uint32_t open = 0;

    for (uint32_t fd = 0; fd < MAXFD; fd++)
        if (is_open(fd))
            open |= 1u << fd;
    print(who);
    print_line(" has", open);
}

static void of_dup(void)
{
    print_line("dup 0 to 5", dup(0, 5));
    print_line("dup 5 to 31", dup(5, 31));
    print_line("dup 1 to 31, which is open", dup(1, 31));
    print_line("dup 0 to 32", dup(0, 32));
    print_line("dup 0 to ffffffff", dup(0, 0xFFFFFFFF));
    print_line("dup of a closed one", dup(7, 8));
    print_line("dup of a closed one to itself", dup(7, 7));
    print_line("dup of a closed one to 32", dup(7, 32));
    print_line("dup of 32 to itself", dup(32, 32));
    print_line("dup of ffffffff", dup(0xFFFFFFFF, 0));
}

static void of_close(void)
{
    print_line("close 5", close(5));
    print_line("close 5 again", close(5));
    print_line("close 32", close(32));
    print_line("close ffffffff", close(0xFFFFFFFF));
    print_line("close 0", close(0));
}

/* The child closes all that it has, and opens others. */
static void in_child(void)
{
    tell_open("the child");
    for (uint32_t fd = 0; fd < MAXFD; fd++)
        if (fd != 1)
            close(fd);
    print_line("in the child, dup 1 to 9", dup(1, 9));
    print_line("in the child, close 1", close(1));
    tell_open("the child");
    print_line("in the child, close 9", close(9));
    print_line("in the child, dup 9 to 1", dup(9, 1));
    tell_open("the child");
}

void umain(int argc, char **argv)
{
    int child;

    tell_open("the program");
    of_dup();
    tell_open("the program");
    of_close();
    tell_open("the program");

    child = fork();
    if (child < 0) {
        print_line("fork", child);
        return;
    }
    if (child == 0) {
        in_child();
        return;
    }
    wait(child);
    tell_open("the program");
    if (argc > 1)
        return;
    for (uint32_t fd = 0; fd < MAXFD; fd++)
        close(fd);
    tell_open("the program");
}
