/* A reader waits at an empty pipe, and asks again and again whether the writer has closed its end, by two counts that it reads one after the other; the
   writer meanwhile makes and drops copies of the reading end, which changes both. The reader has to wait until the byte comes, under every
   schedule. (MIT 6.828, lab 5: user/testpiperace.c) */
#include "print.h"
#include "service.h"

#define ROUNDS 200

void umain(int argc, char **argv)
{
    static char byte;
    struct pipe ends;
    int child, came;

    print("testing for dup race...\n");
    print_line("pipe", pipe(&ends));
    child = fork();
    if (child < 0) {
        print_line("fork", child);
        return;
    }
    if (child == 0) {
        close(ends.writing);
        came = read(ends.reading, (uint32_t)&byte, 1);
        print(came == 1 && byte == 'x' ? "the reader has the byte\n" : "RACE: pipe appears closed\n");
        return;
    }
    for (uint32_t k = 0; k < ROUNDS; k++)
        dup(ends.reading, 10);
    write(ends.writing, (uint32_t) "x", 1);
    wait(child);
    print("race didn't happen\n");
}
