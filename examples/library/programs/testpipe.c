/* A reader comes to the end when the writer has closed its end, and a writer when all readers have closed theirs: the pipe takes 32 bytes then, and
   the next write answers 0. (MIT 6.828, lab 5: user/testpipe.c) */
#include "print.h"
#include "service.h"
#include "string.h"

static const char message[] = "Now is the time for all good men to come to the aid of their party.";

static int made(struct pipe *ends)
{
    int child;

    print_line("pipe", pipe(ends));
    print_line("reading end", ends->reading);
    print_line("writing end", ends->writing);
    child = fork();
    if (child < 0) {
        print_line("fork", child);
        exit();
    }
    return child;
}

static void to_the_end(uint32_t fd)
{
    char buffer[100];
    uint32_t done = 0;
    int came;

    while ((came = read(fd, (uint32_t)buffer + done, sizeof buffer - 1 - done)) > 0)
        done += came;
    buffer[done] = 0;
    if (came == 0 && strcmp(buffer, message) == 0)
        print("pipe read closed properly\n");
    else
        print_line("the last read", came);
}

static void until_closed(uint32_t fd)
{
    do
        print(".");
    while (write(fd, (uint32_t) "x", 1) == 1);
    print("\npipe write closed properly\n");
}

void umain(int argc, char **argv)
{
    struct pipe ends;
    int child = made(&ends), put;

    if (child == 0) {
        close(ends.writing);
        to_the_end(ends.reading);
        exit();
    }
    close(ends.reading);
    put = write(ends.writing, (uint32_t)message, sizeof message - 1);
    close(ends.writing);
    wait(child);
    print_line("written", put);

    child = made(&ends);
    if (child == 0) {
        close(ends.reading);
        until_closed(ends.writing);
        exit();
    }
    close(ends.reading);
    close(ends.writing);
    wait(child);
    print("pipe tests passed\n");
}
