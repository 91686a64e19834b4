/* Bytes of the console's input, each of which read puts where it is asked to: at each address modulo 4, at the ends of the fence, into
   a shared page, and behind a fork into pages that wait to be copied, so that the child's are its own. What is refused, or asks for no
   bytes, takes none; the byte 4 is taken, and answered 0 as the input's end is. */
#include "mmu.h"
#include "print.h"
#include "service.h"

#define PAGE 0x00900000
#define SHARED 0x00901000
#define LAST 0x003FF000 /* the last page before the fence's first gap */
#define CLOSED 31

#define WORD(va) (*(volatile uint32_t *)(va))

static volatile uint32_t datum;

static void show(const char *what, int answer, uint32_t va)
{
    print(what);
    print(", ");
    print_hex(answer);
    print_line(", the word has", WORD(va));
}

static void of_places(void)
{
    show("at 0", read(0, PAGE, 1), PAGE);
    show("at 1", read(0, PAGE + 1, 2), PAGE);
    show("at 2", read(1, PAGE + 2, 4), PAGE);
    show("at 3", read(1, PAGE + 3, 0xFFFFFFFF), PAGE);
    show("at the page's end", read(0, PAGE + PGSIZE - 1, 1), PAGE + PGSIZE - 4);
    show("into a shared page", read(0, SHARED, 1), SHARED);
    show("up to the fence's end", read(0, LAST, 4097), LAST);
    show("at the fence's end", read(0, LAST + PGSIZE - 1, 1), LAST + PGSIZE - 4);
}

/* None of these takes a byte. */
static void of_refusals(void)
{
    print_line("a closed one", read(CLOSED, PAGE, 1));
    print_line("32", read(32, PAGE, 1));
    print_line("ffffffff", read(0xFFFFFFFF, PAGE, 1));
    print_line("below the fence", read(0, 0x001FFFFF, 1));
    print_line("out of the fence", read(0, LAST + PGSIZE - 1, 2));
    print_line("too many at the fence's end", read(0, LAST + 1, 4096));
    print_line("behind the fence's end", read(0, 0x00400000, 1));
    print_line("among descriptors", read(0, 0xD0000000, 1));
    print_line("over the stack's end", read(0, 0xEEBFDFFF, 2));
    print_line("over the last address", read(0, 0xFFFFFFFF, 2));
    print_line("none", read(0, PAGE, 0));
    print_line("none behind the fence's end", read(0, 0x00400000, 0));
    print_line("none from a closed one", read(CLOSED, PAGE, 0));
}

/* The stack is a page that waits to be copied, too. */
static void read_all(const char *who)
{
    volatile uint32_t local = 0;

    print(who);
    print(" reads\n");
    show("  its own page", read(0, PAGE + 1, 1), PAGE);
    show("  static data", read(0, (uint32_t)&datum, 1), (uint32_t)&datum);
    show("  the stack", read(0, (uint32_t)&local, 1), (uint32_t)&local);
    show("  the shared page", read(0, SHARED + 2, 1), SHARED);
}

static void of_fork(void)
{
    int child = fork();

    if (child < 0) {
        print_line("fork", child);
        return;
    }
    if (child == 0) {
        read_all("the child");
        exit();
    }
    wait(child);
    print_line("the parent's own page has", WORD(PAGE));
    print_line("its static data", datum);
    print_line("the shared page", WORD(SHARED));
    read_all("the parent");
}

static void of_ends(void)
{
    show("the byte 4", read(0, PAGE, 1), PAGE);
    show("behind it", read(0, PAGE, 1), PAGE);
    show("the end", read(0, PAGE, 1), PAGE);
    show("the end again", read(0, PAGE, 4096), PAGE);
    show("the end where no page is", read(0, PAGE + 4 * PGSIZE, 1), PAGE);
}

void umain(int argc, char **argv)
{
    page_new(PAGE, PAGE_WRITE);
    page_new(SHARED, PAGE_WRITE | PAGE_SHARED);
    page_new(LAST, PAGE_WRITE);

    of_places();
    of_refusals();
    of_fork();
    of_ends();
}
