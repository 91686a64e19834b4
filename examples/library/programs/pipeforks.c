/* A reader waits at an empty pipe, and asks whether it is closed, while a writer forks again and again, which passes on both ends, each as two
   pages; each child ends at once. Then two write, and when both have ended the reader comes to the end; with a word it counts the bytes. */
#include "print.h"
#include "service.h"

#define CHILDREN 4
#define BYTES 25

static struct pipe ends;
static char buffer[8];

static int born(void)
{
    int child = fork();

    if (child < 0) {
        print_line("fork", child);
        exit();
    }
    return child;
}

static void read_all(int counts)
{
    uint32_t bytes = 0;
    int came = -1;

    close(ends.writing);
    while ((!counts || bytes < BYTES) && (came = read(ends.reading, (uint32_t)buffer, sizeof buffer)) > 0)
        bytes += came;
    print_line("bytes that were read", bytes);
    if (!counts)
        print_line("at the end", came);
}

void umain(int argc, char **argv)
{
    int reader, child;

    pipe(&ends);
    reader = born();
    if (reader == 0) {
        read_all(argc > 1);
        return;
    }
    for (uint32_t k = 0; k < CHILDREN; k++) {
        child = born();
        if (child == 0)
            return;
        wait(child);
    }
    close(ends.reading);
    child = born();
    write(ends.writing, (uint32_t) "letters and others", child == 0 ? 18 : 7);
    if (child == 0)
        return;
    close(ends.writing);
    wait(child);
    wait(reader);
    print("all have ended\n");
}
