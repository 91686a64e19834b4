/* The lowest free block is taken first, and the indirect block right behind the tenth of its file. Files grow by turns and two of four are removed, so
   that every second block is free; then one is made that takes these. It gets the first record that is free, too. What is written stands where it
   was written, and the others have what they had. */
#include "mmu.h"
#include "print.h"
#include "service.h"

#define PAGE 0x00900000

static int opened(const char *path)
{
    int fd = open((uint32_t)path, O_RDWR | O_CREAT);

    print(path);
    print_line(" opens", fd);
    return fd;
}

static void write_block(uint32_t fd, uint32_t number)
{
    for (uint32_t k = 0; k < PGSIZE; k += 4)
        *(uint32_t *)(PAGE + k) = number * PGSIZE + k;
    if (write(fd, PAGE, FILE_WRITE_MAX) + write(fd, PAGE + FILE_WRITE_MAX, PGSIZE - FILE_WRITE_MAX) != PGSIZE)
        print_line("not all is written of block", number);
}

static void write_by_turns(const char *one, const char *other, uint32_t blocks, uint32_t first)
{
    int fd = opened(one), next = opened(other);

    for (uint32_t k = 0; k < blocks; k++) {
        write_block(fd, first + 2 * k);
        write_block(next, first + 2 * k + 1);
    }
    close(fd);
    close(next);
}

/* How many of its words are those that were written. */
static void check(const char *path, uint32_t first, uint32_t step)
{
    uint32_t right = 0;
    int fd = opened(path);

    for (uint32_t block = first; read(fd, PAGE, PGSIZE) == PGSIZE; block += step)
        for (uint32_t k = 0; k < PGSIZE; k += 4)
            right += *(uint32_t *)(PAGE + k) == block * PGSIZE + k;
    print("  blocks of words that are right: ");
    print_number(right / (PGSIZE / 4));
    print("\n");
    close(fd);
}

void umain(int argc, char **argv)
{
    int fd;

    page_new(PAGE, PAGE_WRITE);
    write_by_turns("first", "second", 10, 0);
    write_by_turns("third", "fourth", 2, 20);
    print_line("remove", remove((uint32_t) "first"));
    print_line("remove", remove((uint32_t) "third"));
    fd = opened("grown");
    for (uint32_t k = 0; k < 12; k++)
        write_block(fd, 100 + k);
    close(fd);
    check("second", 1, 2);
    check("fourth", 21, 2);
    check("grown", 100, 1);
}
