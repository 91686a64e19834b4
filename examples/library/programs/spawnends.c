/* A program has the descriptors of the one that starts it: an open file, of which the place of the next byte is the same for both; the ends of a pipe;
   the console. The file of the program itself has none any more. So a pipe is closed when all who were started have ended. */
#include "print.h"
#include "service.h"

static int started(char *name, char *what, char *fd)
{
    char *argv[] = {name, what, fd, 0};
    int child = spawn((uint32_t) "spawned", (uint32_t)argv);

    if (child < 0)
        print_line("spawn", child);
    return child;
}

void umain(int argc, char **argv)
{
    static char bytes[10];
    struct pipe ends;
    int first, second;

    print_line("open", open((uint32_t) "newmotd", O_RDONLY));
    print_line("read", read(2, (uint32_t)bytes, 8));
    cputs((uint32_t)bytes, 8);
    print("\n");
    wait(started("reader", "read", "2"));
    print_line("read behind it", read(2, (uint32_t)bytes, 8));
    wait(started("opener", "open", 0));
    close(0);
    wait(started("opener", "open", 0));

    print_line("pipe", pipe(&ends));
    print_line("its reading end", ends.reading);
    print_line("its writing end", ends.writing);
    wait(started("written to the pipe\n", "write", "3"));
    first = started("a reader", "exit", 0);
    close(ends.writing);
    wait(first);
    second = started("reader", "read", "0");
    wait(second);
    wait(started("written to the console\n", "write", "1"));
    wait(started("written to nothing\n", "write", "3"));
}
