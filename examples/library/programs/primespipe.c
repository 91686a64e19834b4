/* The primes up to 20 by a row of environments, one for each prime, with a pipe from each to the next. Each prints the first number that it is given,
   its prime, and hands on those of which its prime is no divisor. Behind the last number each closes what it writes to, so that the next one reads
   0; with a word it hands on a 0 instead, and none asks for an end. (MIT 6.828, lab 5: user/primespipe.c) */
#include "print.h"
#include "service.h"

#define LAST 20

static int hands_on_0;

/* The next number, or 0 at the end; a read may come by each byte alone. */
static uint32_t next(uint32_t fd)
{
    uint32_t number = 0;

    for (uint32_t done = 0; done < sizeof number;) {
        int came = read(fd, (uint32_t)&number + done, sizeof number - done);

        if (came <= 0)
            return 0;
        done += came;
    }
    return number;
}

static void hand_on(uint32_t fd, uint32_t number)
{
    int put = write(fd, (uint32_t)&number, sizeof number);

    if (put != sizeof number)
        print_line("write", put);
}

static void end(uint32_t fd, int child)
{
    if (hands_on_0)
        hand_on(fd, 0);
    close(fd);
    wait(child);
}

/* A pipe and a child that reads from it: what it writes to, and the child's id; in the child what it reads from, and 0. */
static int born(uint32_t *fd)
{
    struct pipe ends;
    int error = pipe(&ends), child = error < 0 ? error : fork();

    if (child < 0) {
        print_line("born", child);
        exit();
    }
    close(child == 0 ? ends.writing : ends.reading);
    *fd = child == 0 ? ends.reading : ends.writing;
    return child;
}

static void sift(uint32_t from)
{
    uint32_t prime, number, to;
    int child;

    do {
        prime = next(from);
        if (prime == 0)
            exit();
        print_number(prime);
        print("\n");
        child = born(&to);
        if (child == 0) {
            close(from);
            from = to;
        }
    } while (child == 0);
    while ((number = next(from)) != 0)
        if (number % prime != 0)
            hand_on(to, number);
    end(to, child);
    exit();
}

void umain(int argc, char **argv)
{
    uint32_t fd;
    int child;

    hands_on_0 = argc > 1;
    child = born(&fd);
    if (child == 0)
        sift(fd);
    for (uint32_t number = 2; number <= LAST; number++)
        hand_on(fd, number);
    end(fd, child);
    print("these are all up to 20\n");
}
