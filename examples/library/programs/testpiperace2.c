/* The program has both ends of a pipe and waits, to read from the empty one, or to write to the full one; and its child makes and drops copies
   of the end by which it waits. The other end is open all the time. At last the child writes a byte, or takes one.
   (MIT 6.828, lab 5: user/testpiperace2.c) */
#include "print.h"
#include "service.h"

#define ROUNDS 100

static char bytes[PIPESIZE];

static int born(void)
{
    int child = fork();

    if (child < 0) {
        print_line("fork", child);
        exit();
    }
    return child;
}

static void copy_and_close(uint32_t fd)
{
    for (uint32_t k = 0; k < ROUNDS; k++) {
        dup(fd, 10);
        yield();
        close(10);
        yield();
    }
}

static void tell(int moved)
{
    print(moved == 1 ? "race didn't happen\n" : "RACE: pipe appears closed\n");
}

void umain(int argc, char **argv)
{
    struct pipe ends;
    int child;

    print("testing for pipeisclosed race...\n");
    print_line("pipe", pipe(&ends));
    child = born();
    if (child == 0) {
        copy_and_close(ends.reading);
        write(ends.writing, (uint32_t)bytes, 1);
        exit();
    }
    tell(read(ends.reading, (uint32_t)bytes, 1));
    wait(child);

    print_line("a full pipe", write(ends.writing, (uint32_t)bytes, sizeof bytes));
    child = born();
    if (child == 0) {
        copy_and_close(ends.writing);
        read(ends.reading, (uint32_t)bytes, 1);
        exit();
    }
    tell(write(ends.writing, (uint32_t)bytes, 1));
    wait(child);
}
