/* What spawn refuses by what it is given: its answers, and that behind each a program is started all the same. */
#include "mmu.h"
#include "print.h"
#include "service.h"
#include "string.h"

#define LONG 0x00900000
#define LAST 0xCFFFF000 /* the last page before the descriptors */

static char *words[] = {"spawned", "exit", 0};

static void tell(const char *what, uint32_t path, uint32_t argv)
{
    int answer = spawn(path, argv);

    if (answer > 0)
        wait(answer);
    print_line(what, answer);
}

/* The addresses of so many words, each of so many bytes with its end. */
static uint32_t list(uint32_t count, uint32_t length)
{
    static uint32_t addresses[20];

    memset((void *)LONG, 'x', 2 * PGSIZE);
    *(char *)(LONG + length - 1) = 0;
    for (uint32_t k = 0; k < count; k++)
        addresses[k] = LONG;
    addresses[count] = 0;
    return (uint32_t)addresses;
}

void umain(int argc, char **argv)
{
    uint32_t path = (uint32_t) "spawned", given = (uint32_t)words;
    static char *none[] = {0}, *outside[] = {"spawned", (char *)0x00400000, 0};

    page_new(LONG, PAGE_WRITE);
    page_new(LONG + PGSIZE, PAGE_WRITE);
    page_new(LAST, PAGE_WRITE);
    memset((void *)LAST, 'x', PGSIZE);
    tell("path at 0", 0, given);
    tell("path outside", 0x00400000, given);
    tell("path among the descriptors", 0xD0000000, given);
    tell("path over the end of a range", LAST + PGSIZE - 10, given);
    memset((void *)LONG, '/', 2 * PGSIZE);
    tell("path of 1,024 bytes", LONG, given);
    *(char *)(LONG + 1023) = 0;
    tell("path of 1,023 bytes, which is a directory", LONG, given);
    tell("path and words outside", 0, 0);
    tell("words at 0", path, 0);
    tell("words outside", path, 0xFFFFFFFC);
    *(uint32_t *)(LAST + PGSIZE - 4) = path;
    tell("words over the end of a range", path, LAST + PGSIZE - 4);
    memset((void *)LAST, 'x', PGSIZE);
    tell("no words", path, (uint32_t)none);
    tell("a word outside", path, (uint32_t)outside);
    outside[1] = (char *)(LAST + PGSIZE - 10);
    tell("a word over the end of a range", path, (uint32_t)outside);
    tell("16 words", path, list(16, 10));
    tell("17 words", path, list(17, 10));
    tell("a word of 4,080 bytes", path, list(1, 4080));
    tell("a word of 4,081 bytes", path, list(1, 4081));
    tell("a word of 4,096 bytes", path, list(1, 4096));
    tell("a word of 4,097 bytes", path, list(1, 4097));
    tell("16 words of 252 bytes", path, list(16, 252));
    tell("15 words of 253 bytes", path, list(15, 253));
    tell("16 words of 251 bytes", path, list(16, 251));
    tell("no file", (uint32_t) "none", given);
    tell("no file behind another", (uint32_t) "short/none", given);
    tell("a directory", (uint32_t) "/", given);
    tell("a name of 128 bytes", (uint32_t) "xxxxxxxxxxxxxxxxxxxxxxxxxxxxxxxxxxxxxxxxxxxxxxxxxxxxxxxxxxxxxxxx"
         "xxxxxxxxxxxxxxxxxxxxxxxxxxxxxxxxxxxxxxxxxxxxxxxxxxxxxxxxxxxxxxxx", given);
    tell("a file of 5 bytes", (uint32_t) "short", given);
    tell("a file of none", (uint32_t) "empty", given);
    tell("a file of zeros", (uint32_t) "long", given);
    for (uint32_t fd = 2; fd < MAXFD; fd++)
        dup(1, fd);
    tell("no descriptor is free", path, given);
    tell("nor is there a file", (uint32_t) "none", given);
    close(7);
    tell("one is free", path, given);
    print_line("and is free again", dup(1, open((uint32_t) "short", O_RDONLY)));
    tell("none is", path, given);
}
