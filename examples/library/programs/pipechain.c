/* Five environments in a row, with a pipe from each to the next: the first writes a hundred letters, each of the others makes each letter the one behind
   it, and the last prints them. They end when the one before has closed its end; with a word they count the letters. */
#include "print.h"
#include "service.h"

#define LENGTH 5
#define LETTERS 100

static char letters[LETTERS];
static int counts;

/* The letters go on in pieces of seven at most; and the last one gathers them. */
static void go_on(uint32_t from, uint32_t to, int is_last)
{
    uint32_t done = 0;
    int came;

    while ((!counts || done < LETTERS) && (came = read(from, (uint32_t)letters + done, 7)) > 0) {
        for (int k = 0; k < came; k++)
            letters[done + k]++;
        if (!is_last)
            write(to, (uint32_t)letters + done, came);
        done += came;
    }
    if (is_last) {
        cputs((uint32_t)letters, done);
        print("\n");
    }
}

void umain(int argc, char **argv)
{
    struct pipe ends;
    uint32_t from = 0, place = 0;
    int child = 0;

    counts = argc > 1;
    while (place + 1 < LENGTH) {
        pipe(&ends);
        child = fork();
        if (child < 0) {
            print_line("fork", child);
            return;
        }
        if (child > 0) {
            close(ends.reading);
            break;
        }
        close(ends.writing);
        if (place > 0)
            close(from);
        from = ends.reading;
        place++;
    }
    if (place == 0) {
        for (uint32_t k = 0; k < LETTERS; k++)
            letters[k] = 'a' + k % 20;
        write(ends.writing, (uint32_t)letters, LETTERS);
    } else {
        go_on(from, ends.writing, place + 1 == LENGTH);
    }
    close(ends.writing);
    if (child > 0)
        wait(child);
}
