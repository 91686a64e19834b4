/* Pages that go with messages. A shared page goes under its name: it may be written still, and what one writes there the
   other sees. A page of one's own that nobody may write goes as a copy, which may not be written either: here one of this
   program's text. A page of one's own that may be written does not go (-3, E_INVAL), be it new, or there since before the
   fork and not written by either since. (MIT 6.828, lab 4) */
#include "mmu.h"
#include "print.h"
#include "service.h"
#include "string.h"

#define BEFORE 0x00900000
#define NEW 0x00901000
#define SHARED 0x00A00000
#define CAME 0x00B00000
#define TEXT ((uint32_t)&umain / PGSIZE * PGSIZE)

static void tell(const char *who, const struct message *message)
{
    print(who);
    print(" got a page");
    print_line(", which may be read or written (1 or 2)", message->page);
}

static void child_of(uint32_t parent)
{
    struct message message;

    print_line("child: send a page that may be written", send(parent, 0, BEFORE));
    page_new(NEW, PAGE_WRITE);
    print_line("child: send a new page that may be written", send(parent, 0, NEW));

    page_new(SHARED, PAGE_WRITE | PAGE_SHARED);
    strcpy((char *)SHARED, "hello, parent\n");
    send(parent, 1, SHARED);

    receive(0, parent, &message);
    print("child: ");
    print((const char *)SHARED);
    send(parent, 2, TEXT);
}

void umain(int argc, char **argv)
{
    uint32_t parent = getid();
    struct message message;
    int child;

    page_new(BEFORE, PAGE_WRITE);
    *(volatile uint32_t *)BEFORE = 0x12345678;
    child = fork();
    if (child < 0) {
        print_line("fork", child);
        return;
    }
    if (child == 0) {
        child_of(parent);
        return;
    }

    /* it waits for it before it writes anything */
    receive(CAME, child, &message);
    tell("parent", &message);
    print("parent: ");
    print((const char *)CAME);
    print_line("parent: send a page that may be written", send(child, 0, BEFORE));
    strcpy((char *)CAME, "hello, child\n");
    send(child, 0, 0);

    receive(CAME, child, &message);
    tell("parent", &message);
    print_line("parent: it differs from the own one by", memcmp((const void *)CAME, (const void *)TEXT, PGSIZE));
    wait(child);
    print_line("parent: the page from before the fork has", *(const volatile uint32_t *)BEFORE);
    *(volatile uint32_t *)CAME = 1;
    print("not reached\n");
}
