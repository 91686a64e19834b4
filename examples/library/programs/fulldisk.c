/* What the disk has no room for is refused with fffffff7, which is 9 (E_NO_DISK), negated, and changes nothing. A file takes all blocks but so many;
   then others grow, into the indirect block too, and directories. Two children write by one descriptor until their file has that block. */
#include "mmu.h"
#include "print.h"
#include "service.h"

#define PAGE 0x00900000
#define TEN (10 * PGSIZE)

static int filler, file;
static uint32_t all; /* blocks that the filler can have */

static uint32_t size_of(uint32_t fd)
{
    static struct stat told;

    stat(fd, (uint32_t)&told);
    return told.size;
}

static int opened(const char *path, uint32_t mode)
{
    int fd = open((uint32_t)path, mode);

    if (fd < 0)
        print_line(path, fd);
    return fd;
}

/* The filler takes what it can get, and then gives so many back. */
static void leave(uint32_t blocks)
{
    uint32_t has = 0;

    set_size(filler, 0);
    for (uint32_t step = 512; step > 0; step /= 2)
        if (set_size(filler, (has + step) * PGSIZE) == 0)
            has += step;
    all = has;
    set_size(filler, (has - blocks) * PGSIZE);
    print("left: ");
    print_number(blocks);
    print("\n");
}

static void grow(uint32_t size)
{
    print("  set_size ");
    print_number(size);
    print_line("", set_size(file, size));
}

static void put(uint32_t at, uint32_t count)
{
    seek(file, at);
    print("  write of ");
    print_number(count);
    print(" at ");
    print_number(at);
    print_line("", write(file, PAGE, count));
    print_line("  its size", size_of(file));
}

static void make(const char *path)
{
    int fd = open((uint32_t)path, O_CREAT);

    print("  ");
    print_line(path, fd);
    if (fd >= 0)
        close(fd);
}

static void of_directories(void)
{
    static char path[] = "rooms/sub/f00";

    for (uint32_t k = 0; k < 16; k++) {
        path[11] = '0' + k / 10;
        path[12] = '0' + k % 10;
        close(opened(path, O_CREAT));
    }
    leave(0);
    make("rooms/sub/last");
    make("rooms/new");
    leave(1);
    make("rooms/sub/last");
    make("rooms/sub/more");
}

static void of_two(void)
{
    int child[2];

    set_size(filler, 0);
    set_size(file, 0);
    seek(file, 0);
    for (int k = 0; k < 2; k++) {
        child[k] = fork();
        if (child[k] == 0) {
            for (int j = 0; j < 5; j++)
                write(file, PAGE, FILE_WRITE_MAX);
            exit();
        }
    }
    wait(child[0]);
    wait(child[1]);
    print_line("two have written", size_of(file));
    print_line("  write of 81", write(file, PAGE, 81));
    print_line("  its size", size_of(file));
}

void umain(int argc, char **argv)
{
    page_new(PAGE, PAGE_WRITE);
    filler = opened("filler", O_RDWR | O_CREAT);
    file = opened("growing", O_RDWR | O_CREAT);
    print_line("set_size", set_size(file, TEN));
    leave(0);
    grow(TEN);
    grow(TEN + 1);
    put(TEN - 1, 1);
    put(TEN, 1);
    put(TEN - 1, 2);
    put(TEN, 0);
    leave(1);
    grow(TEN + 1);
    put(TEN, 1);
    leave(2);
    put(TEN, 1);
    grow(TEN + PGSIZE);
    grow(TEN + PGSIZE + 1);
    leave(0);
    grow(5);
    grow(TEN);
    grow(TEN + 1);
    grow(TEN + PGSIZE);
    grow(0);
    of_directories();
    of_two();
    close(filler);
    print_line("remove", remove((uint32_t) "filler"));
}
