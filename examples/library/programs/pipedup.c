/* The writing end is open as long as there is a copy of it: behind the close of the first one the reader waits, until a byte comes by the copy. With a
   word it reads on, to the end, which comes behind the close of the copy. */
#include "print.h"
#include "service.h"

static void tell(uint32_t fd)
{
    static char byte;
    int came = read(fd, (uint32_t)&byte, 1);

    print_line("the reader's read", came);
    if (came == 1) {
        cputs((uint32_t)&byte, 1);
        print("\n");
    }
}

void umain(int argc, char **argv)
{
    struct pipe ends;
    int child;

    pipe(&ends);
    child = fork();
    if (child < 0) {
        print_line("fork", child);
        return;
    }
    if (child == 0) {
        close(ends.writing);
        tell(ends.reading);
        if (argc > 1)
            tell(ends.reading);
        return;
    }
    close(ends.reading);
    print_line("dup", dup(ends.writing, 10));
    print_line("close of the first", close(ends.writing));
    for (uint32_t k = 0; k < 50; k++)
        yield();
    print_line("write by the first", write(ends.writing, (uint32_t) "y", 1));
    write(10, (uint32_t) "x", 1);
    close(10);
    wait(child);
}
