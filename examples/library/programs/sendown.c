/* A page of one's own that may be written does not go with a message: the answer is -3 (E_INVAL), and comes before it is
   looked at whether there is anyone to receive it. It is so for a new page, static data and the stack, in the child and in
   the parent, before they have written there since the fork, and behind that. A page that nobody may write goes: here the
   answer is -2 (E_BAD_ENV), since the receiver has ended. */
#include "mmu.h"
#include "print.h"
#include "service.h"

#define NEW 0x00900000
#define READ_ONLY 0x00901000
#define PAGE_OF(datum) ((uint32_t)(datum) / PGSIZE * PGSIZE)

static volatile uint32_t datum = 1;

static void try(const char *who, uint32_t to)
{
    print(who);
    print_line(", a new page", send(to, 7, NEW));
    print(who);
    print_line(", static data", send(to, 7, PAGE_OF(&datum)));
}

void umain(int argc, char **argv)
{
    volatile uint32_t local = 1;
    uint32_t parent = getid();
    int child;

    page_new(NEW, PAGE_WRITE);
    page_new(READ_ONLY, 0);
    *(volatile uint32_t *)NEW = 1;
    child = fork();
    if (child < 0) {
        print_line("fork", child);
        return;
    }
    if (child == 0) {
        try("child", parent);
        datum = *(volatile uint32_t *)NEW = 2;
        try("child has written", parent);
        print_line("child, the stack", send(parent, 7, PAGE_OF(&local)));
        return;
    }
    wait(child);
    try("parent", child);
    datum = *(volatile uint32_t *)NEW = 3;
    try("parent has written", child);
    print_line("parent, the stack", send(child, 7, PAGE_OF(&local)));
    print_line("parent, a page that nobody may write", send(child, 7, READ_ONLY));
}
