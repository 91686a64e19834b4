/* What parent and child see of each other's writes: all of a page that is shared, and nothing of a page of one's own, of
   static data and of the stack. The parent has written 1 to each before the fork, and writes 2 behind it; then the child
   looks, and writes 3; then the parent looks. */
#include "print.h"
#include "service.h"

#define OWN ((volatile uint32_t *)0x00900000)
#define SHARED ((volatile uint32_t *)0x00901000)

static volatile uint32_t datum = 1;

static void set(volatile uint32_t *local, uint32_t number)
{
    *SHARED = *OWN = datum = *local = number;
}

static void show(const char *who, const volatile uint32_t *local)
{
    print(who);
    print(" sees:\n");
    print_line("  the shared page", *SHARED);
    print_line("  the page of its own", *OWN);
    print_line("  static data", datum);
    print_line("  the stack", *local);
}

void umain(int argc, char **argv)
{
    volatile uint32_t local;
    struct message message;
    int child;

    page_new((uint32_t)OWN, PAGE_WRITE);
    page_new((uint32_t)SHARED, PAGE_WRITE | PAGE_SHARED);
    set(&local, 1);
    child = fork();
    if (child < 0) {
        print_line("fork", child);
        return;
    }
    if (child == 0) {
        receive(0, 0, &message);
        show("the child", &local);
        set(&local, 3);
        return;
    }
    set(&local, 2);
    send(child, 0, 0);
    wait(child);
    show("the parent", &local);
}
