/* Buffers that write prints: of several lengths at each address modulo 4, over the end of a page, from a page that may only be read,
   up to the fence's end, and more bytes than one write takes; and what write refuses, in which fffffffd is 3 (E_INVAL), negated. */
#include "mmu.h"
#include "print.h"
#include "service.h"

#define PAGE 0x00900000 /* and the next one */
#define LAST 0x003FF000 /* the last page before the fence's first gap */
#define ROW 64

#define COUNT(array) (sizeof(array) / sizeof(array)[0])

/* Rows of letters, of which each begins with another one. */
static void fill(uint32_t va, uint32_t pages)
{
    char *bytes = (char *)va;

    for (uint32_t at = 0; at < pages * PGSIZE; at++)
        bytes[at] = at % ROW == ROW - 1 ? '\n' : 'a' + (at + at / ROW) % 26;
}

/* What is written stands between brackets. */
static void bracketed(uint32_t fd, uint32_t va, uint32_t len)
{
    int answer;

    print("[");
    answer = write(fd, va, len);
    print_line("]", answer);
}

static void of_lengths(void)
{
    static const uint32_t lengths[] = {0, 1, 3, 4, 5, 8, 13};

    for (uint32_t k = 0; k < COUNT(lengths); k++)
        for (uint32_t at = 0; at < 4; at++)
            bracketed(1, PAGE + at, lengths[k]);
}

static void over_a_page(void)
{
    bracketed(1, PAGE + PGSIZE - 8, 7);
    bracketed(1, PAGE + PGSIZE - 8, 16);
    bracketed(1, PAGE + PGSIZE - 7, 16);
    bracketed(1, PAGE + PGSIZE - 6, 16);
    bracketed(1, PAGE + PGSIZE - 5, 16);
    bracketed(1, PAGE + PGSIZE - 1, 2);
    bracketed(1, PAGE + PGSIZE, 4);
}

static void of_many(void)
{
    print_line("4096", write(1, PAGE, 4096));
    print_line("4097", write(1, PAGE + 3, 4097));
    print_line("ffffffff", write(1, LAST, 0xFFFFFFFF));
}

static void of_descriptors(void)
{
    static const char text[] = "text";

    bracketed(0, (uint32_t)text, 4);
    dup(1, 31);
    bracketed(31, (uint32_t)text + 1, 3);
    close(31);
    print_line("a closed one", write(31, (uint32_t)text, 4));
    print_line("one never open", write(2, (uint32_t)text, 4));
    print_line("32", write(32, (uint32_t)text, 4));
    print_line("ffffffff", write(0xFFFFFFFF, (uint32_t)text, 4));
    print_line("no bytes to a closed one", write(31, (uint32_t)text, 0));
}

/* Of a buffer so many bytes are looked at as are taken. */
static void of_buffers(void)
{
    static const uint32_t buffers[][2] = {
        {0x001FFFFF, 1}, {0x001FFFFF, 2}, {0x003FFFFF, 2}, {0x00400000, 1}, {0x007FFFFF, 2}, {0xCFFFFFFF, 2},
        {0xD0000000, 1}, {0xD03FFFFF, 2}, {0xEEBFDFFF, 2}, {0xEEBFE000, 1}, {0xFFFFFFFF, 1}, {0xFFFFFFFF, 2},
        {0xFFFFF000, 4096}, {LAST + 1, 4096}, {LAST + 1, 0xFFFFFFFF}, {0, 0}, {0x00400000, 0}, {0xFFFFFFFF, 0},
    };

    for (uint32_t k = 0; k < COUNT(buffers); k++) {
        print_hex(buffers[k][1]);
        print(" at ");
        print_hex(buffers[k][0]);
        print_line("", write(1, buffers[k][0], buffers[k][1]));
    }
}

void umain(int argc, char **argv)
{
    page_new(PAGE, PAGE_WRITE);
    page_new(PAGE + PGSIZE, PAGE_WRITE);
    page_new(LAST, PAGE_WRITE);
    fill(PAGE, 2);
    fill(LAST, 1);

    of_lengths();
    over_a_page();
    of_many();
    of_descriptors();
    of_buffers();
}
