/* What the services answer of the ends of a pipe, where nobody has to wait: fffffffd is 3 (E_INVAL), negated, fffffff1 is 15 (E_NOT_SUPP), and fffffff6
   is 10 (E_MAX_OPEN). */
#include "print.h"
#include "service.h"

#define NOWHERE 0

static struct pipe ends;
static char buffer[80];
static struct stat told;

static void tell_stat(void)
{
    for (uint32_t k = 0; k < 2; k++) {
        uint32_t fd = k == 0 ? ends.reading : ends.writing;

        told.size = told.is_directory = 0xFFFFFFFF;
        print_line(k == 0 ? "stat of the reading end" : "stat of the writing end", stat(fd, (uint32_t)&told));
        print(told.name);
        print_line(" holds", told.size);
        print_line("kind", told.is_directory);
    }
}

static void of_moves(void)
{
    print_line("read of the writing end", read(ends.writing, (uint32_t)buffer, 4));
    print_line("read of the writing end into no buffer", read(ends.writing, NOWHERE, 4));
    print_line("read of none of the writing end", read(ends.writing, (uint32_t)buffer, 0));
    print_line("write to the reading end", write(ends.reading, (uint32_t)buffer, 4));
    print_line("read into no buffer", read(ends.reading, NOWHERE, 4));
    print_line("write from no buffer", write(ends.writing, NOWHERE, 4));
    print_line("read of none into no buffer", read(ends.reading, NOWHERE, 0));
    print_line("write of none from no buffer", write(ends.writing, NOWHERE, 0));
    print_line("stat into no buffer", stat(ends.reading, NOWHERE));
}

static void of_others(void)
{
    print_line("seek of the reading end", seek(ends.reading, 0));
    print_line("seek of the writing end", seek(ends.writing, 0xFFFFFFFF));
    print_line("set_size of the reading end", set_size(ends.reading, 0));
    print_line("set_size of the writing end", set_size(ends.writing, 0));
}

static void of_dup(void)
{
    print_line("dup of 3 to 3", dup(3, 3));
    print_line("dup of 0 to 32", dup(0, 32));
    print_line("dup of a closed one", dup(7, 8));
    print_line("dup of 0 to 31", dup(0, 31));
    print_line("write by the copy", write(dup(3, 8), (uint32_t) "copied", 6));
    print_line("dup over an end", dup(2, 8));
    print_line("write by it", write(8, (uint32_t)buffer, 1));
    print_line("read by it", read(8, (uint32_t)buffer, sizeof buffer));
    cputs((uint32_t)buffer, 6);
    print_line(", close", close(8));
    print_line("dup of the console over it", dup(1, 8));
    print_line("write by it", write(8, (uint32_t) "", 0));
}

/* Here 0 to 3, 8 and 31 are open. */
static void of_few(void)
{
    for (uint32_t fd = 0; fd < MAXFD; fd++)
        if (fd != 5 && fd != 23)
            dup(1, fd);
    print_line("pipe where 30 are open", pipe(&ends));
    print_line("reading end", ends.reading);
    print_line("writing end", ends.writing);
    print_line("pipe where 32 are open", pipe(&ends));
    close(23);
    print_line("pipe where 31 are open", pipe(&ends));
    close(31);
    dup(1, 23);
    print_line("pipe where 31 are open", pipe(&ends));
}

void umain(int argc, char **argv)
{
    print_line("pipe", pipe(&ends));
    print_line("reading end", ends.reading);
    print_line("writing end", ends.writing);
    tell_stat();
    of_moves();
    print_line("write of three", write(ends.writing, (uint32_t) "abc", 3));
    print_line("read of ten", read(ends.reading, (uint32_t)buffer, 10));
    print(buffer);
    print("\n");
    print_line("write of 32", write(ends.writing, (uint32_t) "abcdefghijklmnopqrstuvwxyzABCDEF", 32));
    tell_stat();
    of_moves();
    of_others();
    print_line("read of 31", read(ends.reading, (uint32_t)buffer, 31));
    print_line("read of 40", read(ends.reading, (uint32_t)buffer + 31, 40));
    print(buffer);
    print("\n");
    of_dup();
    of_few();
}
