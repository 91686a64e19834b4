/* sync asks the file server and waits for its reply, which is 0: whatever stands in the registers, while another waits to send a
   message, and where children ask at once. Who finds the server at another's request asks again, and each is answered. A child
   leaves its answers in a shared page, and its parent tells them child by child, so the lines come in one order under every
   schedule. */
#include "print.h"
#include "service.h"

#define CHILDREN 5
#define TIMES 4

#define SHARED 0x00900000
#define READY (*(volatile uint32_t *)SHARED)
#define ANSWERS ((volatile uint32_t (*)[TIMES])(SHARED + 16))

static int born(void)
{
    int child = fork();

    if (child < 0) {
        print_line("fork", child);
        exit();
    }
    return child;
}

/* The child's message waits until the parent receives it, and is no reply. */
static void beside_a_message(void)
{
    struct message message;
    uint32_t parent = getid();
    int child = born();

    if (child == 0) {
        READY = 1;
        print_line("send", send(parent, 7, 0));
        exit();
    }
    while (!READY)
        yield();
    for (uint32_t k = 0; k < TIMES; k++)
        print_line("sync beside a message", sync());
    receive(0, 0, &message);
    wait(child);
    print_line("received", message.value);
    print_line("sent by", message.sender);
}

/* They begin when all are there. */
static void of_children(void)
{
    int children[CHILDREN];

    READY = 0;
    for (uint32_t k = 0; k < CHILDREN; k++) {
        children[k] = born();
        if (children[k] == 0) {
            while (!READY)
                yield();
            for (uint32_t j = 0; j < TIMES; j++)
                ANSWERS[k][j] = sync() + k;
            exit();
        }
    }
    READY = 1;
    print_line("sync beside children", sync());
    for (uint32_t k = 0; k < CHILDREN; k++) {
        wait(children[k]);
        print("child ");
        print_number(k);
        for (uint32_t j = 0; j < TIMES; j++) {
            print(" ");
            print_hex(ANSWERS[k][j] - k);
        }
        print("\n");
    }
}

void umain(int argc, char **argv)
{
    page_new(SHARED, PAGE_WRITE | PAGE_SHARED);

    print_line("sync", sync());
    print_line("sync", service(SERVICE_sync, 0xFFFFFFFF, 0xFFFFFFFF, 0xFFFFFFFF));
    beside_a_message();
    of_children();
    print_line("sync", sync());
}
