/* Writes to pipes whose reading ends are closed: as many bytes are put as there is room for, and 0 is answered where there is none at once. */
#include "print.h"
#include "service.h"

static char letters[40];
static struct pipe ends;

static void made(void)
{
    print_line("pipe", pipe(&ends));
    print_line("close of the reading end", close(ends.reading));
}

static void of(uint32_t count)
{
    print_line("write", write(ends.writing, (uint32_t)letters, count));
}

void umain(int argc, char **argv)
{
    made();
    of(5);
    of(40);
    of(1);
    print_line("close of the writing end", close(ends.writing));
    made();
    of(40);
    of(5);
    of(0);
    print_line("close of the writing end", close(ends.writing));
}
