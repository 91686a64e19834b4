/* A message to who has ended is answered -2 (E_BAD_ENV): be it that the receiver had ended before, that it ends while the
   sender waits for it, by itself or by a trap, with a page or without, or that another has its slot by then. The last lines
   are of a child whose parent ends meanwhile. */
#include "print.h"
#include "service.h"

#define SHARED 0x00900000
#define READY (*(volatile uint32_t *)SHARED)

/* Until the other is about to send, and has had time to try. */
static void await_sender(void)
{
    while (!READY)
        yield();
    for (uint32_t k = 0; k < 8; k++)
        yield();
}

static void tell(const char *what, uint32_t to, uint32_t va)
{
    int answer;

    READY = 1;
    answer = send(to, 7, va);
    READY = 0;
    print(what);
    print(", ");
    print_hex(to);
    print_line("", answer);
}

static int born(void)
{
    int child = fork();

    if (child < 0) {
        print_line("fork", child);
        exit();
    }
    return child;
}

void umain(int argc, char **argv)
{
    struct message message;
    uint32_t parent = getid();
    int child, next;

    page_new(SHARED, PAGE_WRITE | PAGE_SHARED);

    child = born();
    if (child == 0)
        return;
    wait(child);
    tell("ended before", child, 0);
    tell("ended before, a page", child, SHARED);

    child = born();
    if (child == 0) {
        await_sender();
        return;
    }
    tell("ends meanwhile", child, 0);

    child = born();
    if (child == 0) {
        await_sender();
        return;
    }
    tell("ends meanwhile, a page", child, SHARED);

    child = born();
    if (child == 0) {
        await_sender();
        breakpoint();
    }
    tell("ends by a trap", child, 0);

    child = born();
    if (child == 0)
        return;
    wait(child);
    next = born();
    if (next == 0) {
        receive(0, parent, &message);
        print_line("received", message.value);
        return;
    }
    tell("another has its slot", child, 0);
    send(next, 8, 0);
    wait(next);

    child = born();
    if (child == 0) {
        tell("a parent that ends", parent, 0);
        return;
    }
    await_sender();
}
