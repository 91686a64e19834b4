/* Files that are no images, each by one word of its headers, or because its end is missing: spawn answers fffffff2, which is 14 (E_NOT_EXEC), negated.
   The file is that of `hello`, copied, of which a word is another each time; and at last it is as it was, and starts. Some are images all the same,
   which have nothing where their first instruction is. */
#include "mmu.h"
#include "print.h"
#include "service.h"

#define COPY "copied"
#define TABLE 52  /* the place of the program headers, of which there are two, of 32 bytes each */

static uint32_t fd, size;
static char *words[] = {COPY, 0};

static void tell(const char *what)
{
    int answer = spawn((uint32_t)COPY, (uint32_t)words);

    if (answer > 0)
        wait(answer);
    print_line(what, answer);
}

static uint32_t word_at(uint32_t place)
{
    uint32_t word = 0;

    seek(fd, place);
    read(fd, (uint32_t)&word, 4);
    return word;
}

static void put(uint32_t place, uint32_t word)
{
    seek(fd, place);
    write(fd, (uint32_t)&word, 4);
}

static void with(const char *what, uint32_t place, uint32_t word)
{
    uint32_t stood = word_at(place);

    put(place, word);
    tell(what);
    put(place, stood);
}

static void cut(const char *what, uint32_t length)
{
    static char rest[PGSIZE];
    int count;

    seek(fd, length);
    count = read(fd, (uint32_t)rest, sizeof rest);
    set_size(fd, length);
    tell(what);
    seek(fd, length);
    write(fd, (uint32_t)rest, count);
}

static void copy(void)
{
    static char bytes[FILE_WRITE_MAX];
    uint32_t from = open((uint32_t) "hello", O_RDONLY);
    int count;

    fd = open((uint32_t)COPY, O_RDWR | O_CREAT);
    while ((count = read(from, (uint32_t)bytes, sizeof bytes)) > 0)
        size += write(fd, (uint32_t)bytes, count);
    close(from);
}

void umain(int argc, char **argv)
{
    uint32_t second = TABLE + 32;

    copy();
    tell("a copy");
    with("another magic number", 0, 0x464C457E);
    with("words of 64 bits", 4, 0x00010102);
    with("the greatest byte first", 4, 0x00010201);
    with("another version there", 4, 0x00020101);
    with("another kind", 16, 0x00030001);
    with("another machine", 16, 0x00020002);
    with("another version", 20, 2);
    with("program headers of 33 bytes", 40, 0x00210034);
    with("17 of them", 44, (word_at(44) & 0xFFFF0000) + 17);
    with("two of them over the end of the file", 28, size - 2 * 32 + 1);
    with("two at the end of the file", 28, size - 2 * 32);
    with("the table behind the end", 28, size);
    with("the table at the end of all", 28, 0xFFFFFFE0);
    with("none", 44, word_at(44) & 0xFFFF0000);
    with("a segment that is none", TABLE, 2);
    with("bytes of the first over the end of the file", TABLE + 4, size - word_at(TABLE + 16) + 1);
    with("bytes of the first at the end of all", TABLE + 4, 0xFFFFFFFF);
    with("the first below the ranges", TABLE + 8, 0x001FFFFF);
    with("the first over the end of the first range", TABLE + 8, 0x003FFFFF);
    with("the first before the second range", TABLE + 8, 0x007FFFFF);
    with("the first over the end of the second range", TABLE + 8, 0xCFFFFFFF);
    with("the first over the second", TABLE + 8, word_at(second + 8) - word_at(TABLE + 20) + 1);
    with("fewer bytes of memory than of the file", TABLE + 20, word_at(TABLE + 16) - 1);
    with("memory up to the end of all", TABLE + 20, 0xFFFFFFFF);
    with("the second without memory", second + 20, 0);
    with("the second of another kind", second, 4);
    cut("one byte is missing", size - 1);
    cut("the table is cut", TABLE + 40);
    cut("the header is cut", 51);
    cut("nothing is left", 0);
    tell("all is there");
}
