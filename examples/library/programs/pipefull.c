/* A pipe takes 32 bytes, and the writer of 33 waits at the last one as long as nobody takes any. */
#include "print.h"
#include "service.h"

#define ANSWER (*(volatile uint32_t *)0x00900000)

static uint32_t held(uint32_t fd)
{
    struct stat told;

    stat(fd, (uint32_t)&told);
    return told.size;
}

void umain(int argc, char **argv)
{
    static char letters[] = "abcdefghijklmnopqrstuvwxyz0123456", first;
    struct pipe ends;
    int child;

    page_new((uint32_t)&ANSWER, PAGE_WRITE | PAGE_SHARED);
    pipe(&ends);
    child = fork();
    if (child < 0) {
        print_line("fork", child);
        return;
    }
    if (child == 0) {
        ANSWER = write(ends.writing, (uint32_t)letters, sizeof letters - 1);
        return;
    }
    while (held(ends.reading) < PIPESIZE)
        yield();
    for (uint32_t k = 0; k < 50; k++)
        yield();
    print_line("held", held(ends.reading));
    print_line("the writer's answer", ANSWER);
    print_line("read of one", read(ends.reading, (uint32_t)&first, 1));
    wait(child);
    print_line("held", held(ends.reading));
    print_line("the writer's answer", ANSWER);
    print_line("read", read(ends.reading, (uint32_t)letters, sizeof letters - 1));
    cputs((uint32_t)&first, 1);
    cputs((uint32_t)letters, PIPESIZE);
    print("\n");
}
