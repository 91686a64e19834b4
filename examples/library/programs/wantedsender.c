/* Who waits for a message of one environment gets none of another: the first child sends its two words as soon as it can,
   the second only when the parent is about to wait for it, and still the parent has them in the order in which it asks. What
   the first child tries to send meanwhile is not kept, nor is it refused: it goes on trying. At last the parent takes what
   anybody sends. */
#include "print.h"
#include "service.h"

#define SHARED 0x00900000

struct shared {
    volatile uint32_t tries; /* the first child is about to send */
    volatile uint32_t waits; /* the parent is about to wait for the second */
    volatile int answers[2][2];
};

#define THEM ((struct shared *)SHARED)

static void send_both(uint32_t parent, uint32_t child)
{
    for (uint32_t k = 0; k < 2; k++)
        THEM->answers[child][k] = send(parent, 16 * (child + 1) + k + 1, 0);
}

static void take(const char *what, uint32_t from)
{
    struct message message;

    receive(0, from, &message);
    print(what);
    print(" comes ");
    print_hex(message.value);
    print_line(" of", message.sender);
}

void umain(int argc, char **argv)
{
    uint32_t parent = getid();
    int first, second;

    page_new(SHARED, PAGE_WRITE | PAGE_SHARED);
    first = fork();
    if (first == 0) {
        THEM->tries = 1;
        send_both(parent, 0);
        return;
    }
    second = fork();
    if (second == 0) {
        while (!THEM->waits)
            yield();
        send_both(parent, 1);
        return;
    }
    while (!THEM->tries)
        yield();
    for (uint32_t k = 0; k < 8; k++)
        yield();
    THEM->waits = 1;
    take("of the second", second);
    take("of the first", first);
    take("of the second", second);
    take("of anybody", 0);
    wait(first);
    wait(second);
    for (uint32_t child = 0; child < 2; child++)
        for (uint32_t k = 0; k < 2; k++)
            print_line("answer", THEM->answers[child][k]);
}
