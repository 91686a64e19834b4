/* A pipe has its end when nobody has its writing end any more: the parent has closed its own, and its read waits while the child still has one, and does
   nothing with it for 50 turns. The child prints a line and closes it; only behind that is the read answered 0. */
#include "print.h"
#include "service.h"

void umain(int argc, char **argv)
{
    static char byte;
    struct pipe ends;
    int child;

    pipe(&ends);
    child = fork();
    if (child < 0) {
        print_line("fork", child);
        return;
    }
    if (child == 0) {
        for (uint32_t k = 0; k < 50; k++)
            yield();
        print("the child closes its end\n");
        close(ends.writing);
        return;
    }
    close(ends.writing);
    print_line("the parent's read", read(ends.reading, (uint32_t)&byte, 1));
    wait(child);
}
