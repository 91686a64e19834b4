/* What stat tells of the console, at each address modulo 4, over the end of a page, and behind a fork in pages that wait to be copied;
   and that what is no file has no place to seek and no size to set: fffffff1 is 15 (E_NOT_SUPP), fffffffd 3 (E_INVAL), negated. */
#include "mmu.h"
#include "print.h"
#include "service.h"
#include "string.h"

#define PAGE 0x00900000 /* and the next one */
#define LAST 0x003FF000 /* the last page before the fence's first gap */
#define CLOSED 31
#define MARK 0xA5
#define EDGE 8u

#define COUNT(array) (sizeof(array) / sizeof(array)[0])

/* marks where stat is to tell, and EDGE bytes before and behind */
static void mark(uint32_t va)
{
    memset((void *)(va - EDGE), MARK, sizeof(struct stat) + 2 * EDGE);
}

/* How many of these bytes are others than stat leaves there, where it has told of the console, or has not. */
static uint32_t wrong_bytes(uint32_t va, bool told)
{
    static const char name[] = "<cons>";
    const volatile uint8_t *bytes = (const volatile uint8_t *)(va - EDGE);
    uint32_t wrong = 0;

    for (uint32_t k = 0; k < sizeof(struct stat) + 2 * EDGE; k++) {
        uint8_t wanted = MARK;

        if (told && EDGE <= k && k < sizeof(struct stat) + EDGE)
            wanted = k - EDGE < sizeof name ? name[k - EDGE] : 0;
        wrong += bytes[k] != wanted;
    }
    return wrong;
}

static void tell(const char *who, uint32_t fd, uint32_t va)
{
    int answer = stat(fd, va);

    print(who);
    print(" at ");
    print_hex(va);
    print(", ");
    print_hex(answer);
    print_line(", wrong bytes", wrong_bytes(va, true));
}

static void of_fields(void)
{
    struct stat told;

    memset(&told, MARK, sizeof told);
    print_line("stat", stat(1, (uint32_t)&told));
    print(told.name);
    print("\n");
    print_line("size", told.size);
    print_line("is a directory", told.is_directory);
}

static void of_places(void)
{
    static const uint32_t places[] = {
        8, 9, 10, 11, PGSIZE - 136, PGSIZE - 135, PGSIZE - 133, PGSIZE - 128, PGSIZE - 66, PGSIZE - 4, PGSIZE - 3, PGSIZE - 1, PGSIZE,
    };

    for (uint32_t k = 0; k < COUNT(places); k++) {
        mark(PAGE + places[k]);
        tell("stat", k % 2, PAGE + places[k]);
    }
}

static void of_refusals(void)
{
    print_line("stat of a closed one", stat(CLOSED, PAGE));
    print_line("stat of 32", stat(32, PAGE));
    print_line("stat of ffffffff", stat(0xFFFFFFFF, PAGE));
    print_line("stat at the fence's end", stat(0, LAST + PGSIZE - 136));
    print_line("stat over the fence's end", stat(0, LAST + PGSIZE - 135));
    print_line("stat behind it", stat(0, LAST + PGSIZE));
    print_line("stat at 0", stat(0, 0));
    print_line("stat over the last address", stat(0, 0xFFFFFFFF));
    print_line("stat of a closed one at 0", stat(CLOSED, 0));
}

static void of_files(void)
{
    print_line("seek", seek(0, 0));
    print_line("seek too far", seek(1, 0x80000000));
    print_line("seek a closed one", seek(CLOSED, 0));
    print_line("seek 32", seek(32, 0));
    print_line("set_size", set_size(1, 0));
    print_line("set_size too large", set_size(0, 0xFFFFFFFF));
    print_line("set_size of a closed one", set_size(CLOSED, 0));
    print_line("set_size of ffffffff", set_size(0xFFFFFFFF, 0));
}

/* The child's pages are its own. */
static void of_fork(void)
{
    uint32_t across = PAGE + PGSIZE - 67;
    int child;

    mark(across);
    child = fork();
    if (child < 0) {
        print_line("fork", child);
        return;
    }
    if (child == 0) {
        tell("the child's stat", 0, across);
        exit();
    }
    wait(child);
    print_line("the parent's pages, wrong bytes", wrong_bytes(across, false));
    tell("the parent's stat", 0, across);
}

void umain(int argc, char **argv)
{
    page_new(PAGE, PAGE_WRITE);
    page_new(PAGE + PGSIZE, PAGE_WRITE);
    page_new(LAST, PAGE_WRITE);

    of_fields();
    of_places();
    of_refusals();
    of_files();
    of_fork();
}
