/* An environment that has an end of a pipe is ended by a page fault: what it has written is read, and then comes the end, as often as it is asked for;
   what it has taken is gone. A write of which a byte is not there puts none; and a writer learns of a reader that has ended so. */
#include "mmu.h"
#include "print.h"
#include "service.h"

#define PAGE 0x00900000 /* and none behind it */
#define NOWHERE 0x30000000

static struct pipe ends;
static char buffer[64];

static int born(const char *what)
{
    int child;

    print(what);
    print("\n");
    pipe(&ends);
    child = fork();
    if (child < 0) {
        print_line("fork", child);
        exit();
    }
    return child;
}

static void fault(void)
{
    *(volatile uint32_t *)NOWHERE = 1;
}

static void tell(void)
{
    int came = read(ends.reading, (uint32_t)buffer, sizeof buffer);

    print_line("read", came);
    if (came > 0) {
        cputs((uint32_t)buffer, came);
        print("\n");
    }
}

static uint32_t held(uint32_t fd)
{
    struct stat told;

    stat(fd, (uint32_t)&told);
    return told.size;
}

void umain(int argc, char **argv)
{
    int child, put;

    page_new(PAGE, PAGE_WRITE);
    child = born("a writer, behind its write");
    if (child == 0) {
        write(ends.writing, (uint32_t) "hello", 5);
        fault();
    }
    close(ends.writing);
    wait(child);
    tell();
    tell();
    tell();
    close(ends.reading);

    child = born("a writer, in its write");
    if (child == 0) {
        write(ends.writing, PAGE + PGSIZE - 3, 7);
        exit();
    }
    close(ends.writing);
    wait(child);
    tell();
    close(ends.reading);

    child = born("a reader, in its read");
    if (child == 0) {
        close(ends.writing);
        while (held(ends.reading) < 8)
            yield();
        read(ends.reading, NOWHERE, 5);
        exit();
    }
    put = write(ends.writing, (uint32_t) "abcdefgh", 8);
    wait(child);
    print_line("write", put);
    close(ends.writing);
    tell();
    tell();
    close(ends.reading);

    child = born("a reader, of whose writer the pipe is full");
    if (child == 0) {
        close(ends.writing);
        while (held(ends.reading) < PIPESIZE)
            yield();
        fault();
    }
    close(ends.reading);
    print_line("write", write(ends.writing, (uint32_t)buffer, 40));
    print_line("held", held(ends.writing));
}
