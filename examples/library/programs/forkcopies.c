/* Each page that may be written is copied for who writes there: four pages of static data, and the stack. The child writes
   at the beginning, in the middle and at the end of each page, from the first page upwards, and the parent from the last
   one downwards. When both have done so, each shows what it finds there, and how many other words are not as they were
   before the fork. */
#include "mmu.h"
#include "print.h"
#include "service.h"

#define PAGES 4
#define WORDS (PGSIZE / 4)
#define PLACES 3

static volatile uint32_t data[PAGES][WORDS] __attribute__((aligned(PGSIZE)));
static const uint32_t places[PLACES] = {0, WORDS / 2, WORDS - 1};

static uint32_t before(uint32_t page, uint32_t place)
{
    return page << 16 | place;
}

static void mark_page(uint32_t page, uint32_t mark)
{
    for (uint32_t k = 0; k < PLACES; k++)
        data[page][places[k]] |= mark;
}

static void show(const char *who, const volatile uint32_t *local)
{
    uint32_t others = 0;

    for (uint32_t page = 0; page < PAGES; page++) {
        print(who);
        print(", page ");
        print_number(page);
        for (uint32_t k = 0; k < PLACES; k++) {
            print(" ");
            print_hex(data[page][places[k]]);
        }
        print("\n");
        for (uint32_t place = 0; place < WORDS; place++)
            others += data[page][place] != before(page, place);
    }
    print(who);
    print_line(", the stack", *local);
    print(who);
    print_line(", other words that differ", others - PAGES * PLACES);
}

void umain(int argc, char **argv)
{
    volatile uint32_t local = 1;
    struct message message;
    int child;

    for (uint32_t page = 0; page < PAGES; page++)
        for (uint32_t place = 0; place < WORDS; place++)
            data[page][place] = before(page, place);

    child = fork();
    if (child < 0) {
        print_line("fork", child);
        return;
    }
    if (child == 0) {
        for (uint32_t page = 0; page < PAGES; page++)
            mark_page(page, 0xC0000000);
        local |= 0xC0000000;
        receive(0, 0, &message);
        show("child", &local);
        return;
    }
    local |= 0xA0000000;
    for (uint32_t page = PAGES; page > 0; page--)
        mark_page(page - 1, 0xA0000000);
    send(child, 0, 0);
    wait(child);
    show("parent", &local);
}
