/* Of two readers one closes its end while the other asks whether the writer has gone. A close is two steps: under the schedule pipe-closing the other
   asks between the two. It waits all the same, until the byte comes. */
#include "print.h"
#include "service.h"

static struct pipe ends;

static int born(void)
{
    int child = fork();

    if (child < 0) {
        print_line("fork", child);
        exit();
    }
    if (child == 0)
        close(ends.writing);
    return child;
}

void umain(int argc, char **argv)
{
    static char byte;
    int waits, closes, put;

    print_line("pipe", pipe(&ends));
    waits = born();
    if (waits == 0) {
        print(read(ends.reading, (uint32_t)&byte, 1) == 1 && byte == 'x' ? "the reader has the byte\n" : "RACE: pipe appears closed\n");
        return;
    }
    closes = born();
    if (closes == 0) {
        close(ends.reading);
        return;
    }
    close(ends.reading);
    wait(closes);
    put = write(ends.writing, (uint32_t) "x", 1);
    wait(waits);
    print_line("write", put);
}
