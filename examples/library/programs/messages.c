/* Messages between a parent and its child, in both directions, and whoever comes first: with no page; with a page that
   both have as a shared one; with one of this program's text, which goes as a copy; and with a shared one that the receiver
   does not want. A line has the word, who sent it, and of the page whether it may be read or written (1 or 2; 0 where none
   came) and its first word, less what the receiver has in the page that was sent. Through a page that may be written the
   receiver puts the message's word first, and so it stands in the page that was sent. */
#include "mmu.h"
#include "print.h"
#include "service.h"

#define SHARED 0x00900000
#define READY (*(volatile uint32_t *)(SHARED + 4))
#define CAME 0x00901000
#define TEXT ((uint32_t)&umain / PGSIZE * PGSIZE)

enum { NONE, A_SHARED_ONE, A_COPY, UNWANTED, KINDS };

static uint32_t word_at(uint32_t va)
{
    return *(volatile uint32_t *)va;
}

/* Comes behind the other, which has told that it is about to send, or to receive. */
static void come_last(void)
{
    while (!READY)
        yield();
    for (uint32_t k = 0; k < 8; k++)
        yield();
}

static void come_first(void)
{
    READY = 1;
}

static void have(const char *who, uint32_t from, uint32_t kind)
{
    uint32_t sent = kind == A_COPY ? TEXT : SHARED;
    struct message message;

    receive(kind == UNWANTED ? 0 : CAME, from, &message);
    if (message.page == 2)
        *(volatile uint32_t *)CAME = message.value;
    print(who);
    print_hex(message.value);
    print(" of ");
    print_hex(message.sender);
    print(", page ");
    print_number(message.page);
    if (message.page != 0) {
        print(", less ");
        print_hex(word_at(CAME) - word_at(sent));
    }
    print("\n");
}

static void give(uint32_t to, uint32_t kind, uint32_t word)
{
    uint32_t page = kind == NONE ? 0 : kind == A_COPY ? TEXT : SHARED;
    int answer = send(to, word, page);

    if (answer != 0)
        print_line("send", answer);
}

/* one message; who is the sender, and who comes first */
static void exchange(int child_sends, int sender_first, uint32_t kind, uint32_t word)
{
    uint32_t parent = getid();
    int child;

    READY = 0;
    child = fork();
    if (child < 0) {
        print_line("fork", child);
        exit();
    }
    if ((child == 0) == child_sends) {
        (sender_first ? come_first : come_last)();
        give(child == 0 ? parent : (uint32_t)child, kind, word);
    } else {
        (sender_first ? come_last : come_first)();
        have(child == 0 ? "child has " : "parent has ", child == 0 ? parent : (uint32_t)child, kind);
    }
    if (child == 0)
        exit();
    wait(child);
    page_drop(CAME);
}

void umain(int argc, char **argv)
{
    uint32_t word = 0;

    page_new(SHARED, PAGE_WRITE | PAGE_SHARED);
    for (uint32_t kind = 0; kind < KINDS; kind++)
        for (int child_sends = 0; child_sends < 2; child_sends++)
            for (int sender_first = 0; sender_first < 2; sender_first++) {
                word++;
                exchange(child_sends, sender_first, kind, word);
                if (kind == A_SHARED_ONE)
                    print_line("it stands there", word_at(SHARED));
            }
}
