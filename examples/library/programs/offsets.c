/* Where the next byte is read and written, and what seek, set_size, read and write of a file refuse: fffffffd is 3 (E_INVAL), fffffff7 is
   9 (E_NO_DISK) and fffffff1 is 15 (E_NOT_SUPP), negated. */
#include "mmu.h"
#include "print.h"
#include "service.h"
#include "string.h"

#define PAGE 0x00900000 /* and the next one */
#define MAXFILESIZE 4235264

static uint32_t size_of(uint32_t fd)
{
    static struct stat told;

    stat(fd, (uint32_t)&told);
    return told.size;
}

static void tell_size(uint32_t fd)
{
    print_line("its size", size_of(fd));
}

static void tell_bytes(uint32_t fd, uint32_t at, uint32_t count)
{
    seek(fd, at);
    memset((char *)PAGE, '?', count);
    print_line("read", read(fd, PAGE, count));
    for (uint32_t k = 0; k < count; k++)
        if (((char *)PAGE)[k] == 0)
            ((char *)PAGE)[k] = '0';
    cputs(PAGE, count);
    print("\n");
}

/* Behind the end there is nothing to read, and what is written there comes behind zeros. */
static void behind_the_end(uint32_t fd)
{
    print_line("seek", seek(fd, 10000));
    print_line("read behind the end", read(fd, PAGE, 5));
    print_line("write of none behind the end", write(fd, PAGE, 0));
    tell_size(fd);
    memcpy((char *)PAGE, "x", 1);
    print_line("write of one", write(fd, PAGE, 1));
    tell_size(fd);
    tell_bytes(fd, 9990, 20);
}

static void of_sizes(uint32_t fd)
{
    print_line("set_size 0", set_size(fd, 0));
    print_line("write there", write(fd, (uint32_t) "letters", 7)); /* the place is still 10,001 */
    print_line("set_size 0", set_size(fd, 0));
    seek(fd, 0);
    print_line("write", write(fd, (uint32_t) "abcdefghij", 10));
    print_line("set_size 5", set_size(fd, 5));
    print_line("set_size 12", set_size(fd, 12));
    tell_bytes(fd, 0, 14);
    print_line("set_size 45057", set_size(fd, 45057));
    tell_size(fd);
    tell_bytes(fd, 45050, 14);
    print_line("set_size 40960", set_size(fd, 40960));
    print_line("set_size ffffffff", set_size(fd, 0xFFFFFFFF));
    print_line("set_size 4235265", set_size(fd, MAXFILESIZE + 1));
    print_line("set_size 4235264 on a small disk", set_size(fd, MAXFILESIZE));
    tell_size(fd);
}

static void of_counts(uint32_t fd)
{
    set_size(fd, 0);
    seek(fd, 0);
    memset((char *)PAGE, 'm', 2 * PGSIZE);
    print_line("write of 4089", write(fd, PAGE, 4089));
    print_line("write of ffffffff", write(fd, PAGE, 0xFFFFFFFF));
    tell_size(fd);
    seek(fd, 0);
    print_line("read of 5000", read(fd, PAGE, 5000));
    print_line("read of ffffffff", read(fd, PAGE, 0xFFFFFFFF));
    print_line("read of 1", read(fd, PAGE, 1));
    print_line("read of 0", read(fd, PAGE, 0));
}

static void of_ends(uint32_t fd)
{
    print_line("seek to 80000000", seek(fd, 0x80000000));
    print_line("seek to 7fffffff", seek(fd, 0x7FFFFFFF));
    print_line("read there", read(fd, PAGE, 1));
    print_line("write there", write(fd, PAGE, 1));
    print_line("write of none there", write(fd, PAGE, 0));
    print_line("seek to 4235264", seek(fd, MAXFILESIZE));
    print_line("write there", write(fd, PAGE, 1));
    print_line("write of none there", write(fd, PAGE, 0));
    tell_size(fd);
    seek(fd, 8170);
    print_line("read near the end", read(fd, PAGE, 10));
}

static void of_refusals(uint32_t reading, uint32_t writing)
{
    print_line("write, open for reading", write(reading, PAGE, 1));
    print_line("set_size, open for reading", set_size(reading, 0));
    print_line("seek, open for reading", seek(reading, 2));
    print_line("read", read(reading, PAGE, 1));
    print_line("read, open for writing", read(writing, PAGE, 1));
    print_line("read, open for writing, into no buffer", read(writing, 0x00400000, 1));
    print_line("read into no buffer", read(reading, 0x00400000, 1));
    print_line("read of 0 into no buffer", read(reading, 0x00400000, 0));
    print_line("write from no buffer", write(writing, 0x00400000, 1));
    print_line("write of 0 from no buffer", write(writing, 0x00400000, 0));
    print_line("stat into no buffer", stat(writing, 0x003FFFF8));
    print_line("seek of the console", seek(0, 5));
    print_line("set_size of the console", set_size(1, 5));
    print_line("seek of a closed one", seek(9, 5));
    print_line("set_size of a closed one", set_size(9, 5));
    print_line("stat of a closed one", stat(9, PAGE));
    print_line("read of 32", read(32, PAGE, 1));
    print_line("write of ffffffff", write(0xFFFFFFFF, PAGE, 1));
}

void umain(int argc, char **argv)
{
    int fd, reading, writing;

    page_new(PAGE, PAGE_WRITE);
    page_new(PAGE + PGSIZE, PAGE_WRITE);
    fd = open((uint32_t) "empty", O_RDWR);
    print_line("open", fd);
    behind_the_end(fd);
    of_sizes(fd);
    of_counts(fd);
    of_ends(fd);
    reading = open((uint32_t) "kept", O_RDONLY);
    writing = open((uint32_t) "kept", O_WRONLY);
    of_refusals(reading, writing);
}
