/* A pipe that has room for one byte whenever the turn of its writer begins and ends: in between another takes a byte and puts one. */
#include "print.h"
#include "service.h"

static uint32_t held(uint32_t fd)
{
    struct stat told;

    stat(fd, (uint32_t)&told);
    return told.size;
}

void umain(int argc, char **argv)
{
    static char letters[] = "abcdefghijklmnopqrstuvwxyz0123456789", byte;
    struct pipe ends;
    uint32_t rounds;
    int child;

    pipe(&ends);
    write(ends.writing, (uint32_t)letters, PIPESIZE);
    child = fork();
    if (child == 0) {
        write(ends.writing, (uint32_t)letters, 1);
        return;
    }
    /* so that no page is copied any more when it counts */
    byte = 1;
    held(ends.reading);
    for (uint32_t k = 0; k < 400; k++)
        yield();
    read(ends.reading, (uint32_t)&byte, 1);
    for (rounds = 0; rounds < 40; rounds++) {
        if (held(ends.reading) == PIPESIZE)
            break;
        read(ends.reading, (uint32_t)&byte, 1);
        write(ends.writing, (uint32_t)&byte, 1);
        yield();
    }
    print_line("rounds", rounds);
    print_line("held", held(ends.reading));
    close(ends.reading);
    wait(child);
}
