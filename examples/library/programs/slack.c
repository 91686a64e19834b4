/* Files and a directory with an indirect block that they do not need, which no service leaves: a write keeps it, and set_size and O_TRUNC give it
   back, also where no size changes. Then files and directories that grow by a block where so many are free. fffffff7 is 9 (E_NO_DISK), negated.
   At last a file with bytes behind its end, and behind its name: nobody gets to see them. */
#include "mmu.h"
#include "print.h"
#include "service.h"

#define PAGE 0x00900000
#define TEN (10 * PGSIZE)
#define NINE (9 * PGSIZE)

static int filler;
static uint32_t before; /* blocks that are free at the beginning */

static int opened(const char *path, uint32_t mode)
{
    int fd = open((uint32_t)path, mode);

    print(path);
    print_line(" opens", fd);
    return fd;
}

/* The most blocks that the filler can have, which it has then. One more is free, which is its indirect block then. */
static uint32_t fill(void)
{
    uint32_t has = 0;

    set_size(filler, 0);
    for (uint32_t step = 512; step > 0; step /= 2)
        if (set_size(filler, (has + step) * PGSIZE) == 0)
            has += step;
    return has;
}

static void leave(uint32_t blocks)
{
    set_size(filler, (fill() - blocks) * PGSIZE);
    print("left: ");
    print_number(blocks);
    print("\n");
}

static void tell_given_back(void)
{
    print("  given back: ");
    print_number(fill() - before);
    print("\n");
    set_size(filler, 0);
}

static void grow(uint32_t fd, uint32_t size)
{
    print("  set_size ");
    print_number(size);
    print_line("", set_size(fd, size));
}

static void put(uint32_t fd, uint32_t at)
{
    seek(fd, at);
    print("  write at ");
    print_number(at);
    print_line("", write(fd, (uint32_t) "bytes", 5));
}

/* What stands there: how many of so many bytes are read, and are 0. */
static void tell_zeros(uint32_t fd, uint32_t at, uint32_t count)
{
    uint32_t zeros = 0;
    int has;

    seek(fd, at);
    has = read(fd, PAGE, count);
    for (int k = 0; k < has; k++)
        zeros += ((char *)PAGE)[k] == 0;
    print("  of ");
    print_number(has);
    print(" bytes at ");
    print_number(at);
    print(" are 0: ");
    print_number(zeros);
    print("\n");
}

static void tell_size(uint32_t fd)
{
    static struct stat told;
    uint32_t others = 0;

    stat(fd, (uint32_t)&told);
    print("  ");
    print(told.name);
    print_line(" has", told.size);
    for (uint32_t k = 0; k < sizeof told.name; k++)
        others += told.name[k] != 0;
    print("  bytes of its name: ");
    print_number(others);
    print("\n");
}

static void of_room(void)
{
    int fd = opened("inplace", O_RDWR);

    put(fd, 0);
    put(fd, TEN - 5);
    tell_given_back();
    close(fd);
    fd = opened("same", O_RDWR);
    tell_given_back();
    grow(fd, TEN);
    tell_given_back();
    grow(fd, TEN);
    tell_given_back();
    close(fd);
    fd = opened("truncated", O_RDWR | O_TRUNC);
    tell_given_back();
    close(fd);
}

static void of_want(void)
{
    int nine = opened("nine", O_RDWR), ten = opened("eleventh", O_RDWR);

    leave(0);
    put(nine, NINE);
    tell_size(nine);
    grow(nine, NINE + 1);
    tell_zeros(nine, NINE, PGSIZE);
    grow(nine, TEN);
    tell_zeros(nine, NINE, PGSIZE);
    grow(nine, TEN + 1);
    put(ten, TEN);
    leave(1);
    grow(ten, TEN + 1);
    tell_size(ten);
    close(nine);
    close(ten);
}

static void made(const char *path)
{
    int fd;

    print("  ");
    fd = opened(path, O_CREAT);
    if (fd >= 0)
        close(fd);
}

static void of_directories(void)
{
    static char path[] = "f00";

    leave(0);
    made("full/new");
    made("ready/new");
    leave(1);
    made("full/new");
    made("ready/new");
    leave(2);
    made("full/new");
    made("full/more");
    for (uint32_t k = 10; k < 16; k++) { /* with ten records that are there, the root's block is full */
        path[1] = '0' + k / 10;
        path[2] = '0' + k % 10;
        close(open((uint32_t)path, O_CREAT));
    }
    leave(0);
    made("seventeenth");
    leave(1);
    made("seventeenth");
    leave(0);
    made("eighteenth");
}

static void of_ends(void)
{
    int fd = opened("ends", O_RDWR);

    tell_size(fd);
    tell_zeros(fd, 0, 200);
    grow(fd, 12);
    tell_zeros(fd, 0, 200);
    put(fd, 20);
    tell_zeros(fd, 0, 200);
    grow(fd, 200);
    tell_zeros(fd, 0, 200);
    close(fd);
}

void umain(int argc, char **argv)
{
    page_new(PAGE, PAGE_WRITE);
    filler = opened("filler", O_RDWR | O_CREAT);
    before = fill();
    set_size(filler, 0);
    of_room();
    of_want();
    of_directories();
    of_ends();
    close(filler);
    print_line("remove", remove((uint32_t) "filler"));
}
