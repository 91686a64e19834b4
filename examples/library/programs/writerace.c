/* A child writes over eight words of a shared page while its parent writes them to the console. What is printed is what was loaded, a
   word at once: all that the child has put, where that comes before the first load (schedule library-before); of each word what stood
   there when its turn came (library-between); and nothing of the child's behind the last load, though it stands in the page by the time
   the line is printed (library-behind). The second line always has the child's. */
#include "print.h"
#include "service.h"

#define SHARED 0x00900000
#define WORDS 8

static void fill(char letter)
{
    volatile uint32_t *words = (volatile uint32_t *)SHARED;

    for (uint32_t k = 0; k < WORDS; k++)
        words[k] = letter * 0x01010101u;
}

void umain(int argc, char **argv)
{
    int child;

    page_new(SHARED, PAGE_WRITE | PAGE_SHARED);
    *(volatile char *)(SHARED + 4 * WORDS) = '\n';
    fill('a');
    child = fork();
    if (child == 0) {
        fill('b');
        return;
    }
    write(1, SHARED, 4 * WORDS + 1);
    wait(child);
    write(1, SHARED, 4 * WORDS + 1);
}
