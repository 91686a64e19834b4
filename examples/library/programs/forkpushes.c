/* PUSHA puts eight words, and here across two pages that both wait to be copied, so that one instruction wants two copies.
   Parent and child make it behind a fork, with other registers. ESP lies so many bytes above the pages' border as the lines
   say: 4, so that one word is above it and seven are below; 16; 28; and where a word lies across it. A line has the eight
   words from below upwards, as PUSHA puts them: EDI, ESI, EBP, ESP as it was (told from the border on), EBX, EDX, ECX, EAX;
   and how many of the 64 bytes on each side of the border have changed beside them. */
#include "mmu.h"
#include "print.h"
#include "service.h"
#include "string.h"

#define SIDE 64
#define BORDER ((uint32_t)&pages[PGSIZE])
#define FILLING 0x5A

static uint8_t pages[2 * PGSIZE] __attribute__((aligned(PGSIZE)));
uint32_t kept, target;

/* All registers but ESP get these words, as POPA takes them, and PUSHA puts all eight below `to`. */
void push_all(uint32_t to, const uint32_t *words);
__asm__(".text\n"
        "push_all:\n"
        "    pushal\n"
        "    movl %esp, kept\n"
        "    movl 36(%esp), %eax\n"
        "    movl %eax, target\n"
        "    movl 40(%esp), %esp\n"
        "    popal\n"
        "    movl target, %esp\n"
        "    pushal\n"
        "    movl kept, %esp\n"
        "    popal\n"
        "    ret\n");

static void push(uint32_t above, uint32_t first)
{
    uint32_t words[8];

    for (uint32_t k = 0; k < 8; k++)
        words[k] = first + k;
    push_all(BORDER + above, words);
}

static void show(const char *who, uint32_t above)
{
    uint32_t words[8], others = 0;

    memcpy(words, (const void *)(BORDER + above - sizeof words), sizeof words);
    words[3] -= BORDER;
    for (uint32_t at = BORDER - SIDE; at < BORDER + SIDE; at++)
        others += *(const uint8_t *)at != FILLING && (at < BORDER + above - sizeof words || at >= BORDER + above);
    print(who);
    print_number(above);
    print(":");
    for (uint32_t k = 0; k < 8; k++) {
        print(" ");
        print_hex(words[k]);
    }
    print_line(" others", others);
}

void umain(int argc, char **argv)
{
    static const uint32_t places[] = {4, 16, 28, 2, 31};
    int child;

    for (uint32_t k = 0; k < sizeof places / sizeof places[0]; k++) {
        memset((void *)(BORDER - SIDE), FILLING, 2 * SIDE);
        child = fork();
        if (child < 0) {
            print_line("fork", child);
            return;
        }
        if (child == 0) {
            push(places[k], 0xC0);
            show("child ", places[k]);
            return;
        }
        push(places[k], 0xA0);
        wait(child);
        show("parent ", places[k]);
    }
}
