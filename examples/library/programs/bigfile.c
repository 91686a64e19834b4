/* A file that grows over ten blocks gets an indirect block, which takes one more, and gives that back when its size is set to ten or fewer.
   How many blocks are free is told by how far a file can grow. What was written is read back at the places where blocks begin and end. */
#include "mmu.h"
#include "print.h"
#include "service.h"

#define PAGE 0x00900000 /* and the next one */
#define TEN (10 * PGSIZE)

static uint32_t size_of(uint32_t fd)
{
    static struct stat told;

    stat(fd, (uint32_t)&told);
    return told.size;
}

/* The greatest size in blocks that a new file can have, beside what is there. */
static uint32_t room(void)
{
    int fd = open((uint32_t) "room", O_RDWR | O_CREAT | O_TRUNC);
    uint32_t blocks = 0;

    if (fd < 0)
        return fd;
    for (uint32_t step = 512; step > 0; step /= 2)
        if (set_size(fd, (blocks + step) * PGSIZE) == 0)
            blocks += step;
    set_size(fd, 0);
    close(fd);
    return blocks;
}

/* Each word of four bytes tells its own place. */
static void fill(uint32_t fd, uint32_t size)
{
    for (uint32_t at = 0; at < size;) {
        uint32_t count = size - at < FILE_WRITE_MAX ? size - at : FILE_WRITE_MAX;

        for (uint32_t k = 0; k < count; k += 4)
            *(uint32_t *)(PAGE + k) = at + k;
        if (write(fd, PAGE, count) != (int)count)
            print_line("not all is written at", at);
        at += count;
    }
}

static void check(uint32_t fd, uint32_t at)
{
    seek(fd, at);
    print("at ");
    print_number(at);
    if (read(fd, PAGE, 8) != 8)
        print(": not eight bytes\n");
    else if (*(uint32_t *)PAGE == at && *(uint32_t *)(PAGE + 4) == at + 4)
        print(": as written\n");
    else
        print_line("", *(uint32_t *)PAGE);
}

void umain(int argc, char **argv)
{
    uint32_t before, fd;

    page_new(PAGE, PAGE_WRITE);
    before = room();
    fd = open((uint32_t) "large", O_RDWR | O_CREAT);
    print_line("open", fd);
    fill(fd, TEN + 2 * PGSIZE);
    print_line("its size", size_of(fd));
    print_line("blocks that it takes", before - room());
    check(fd, 0);
    check(fd, PGSIZE - 4);
    check(fd, TEN - 8);
    check(fd, TEN - 4);
    check(fd, TEN);
    check(fd, TEN + PGSIZE - 4);
    check(fd, TEN + 2 * PGSIZE - 8);
    print_line("set_size", set_size(fd, TEN + 1));
    print_line("blocks that it takes", before - room());
    print_line("set_size", set_size(fd, TEN));
    print_line("blocks that it takes", before - room());
    check(fd, TEN - 8);
    print_line("set_size", set_size(fd, 0));
    print_line("blocks that it takes", before - room());
    close(fd);
    print_line("remove", remove((uint32_t) "large"));
    print_line("remove", remove((uint32_t) "room"));
}
