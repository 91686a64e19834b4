/* Where no frame is left spawn answers fffffffc, which is 4 (E_NO_MEM), negated, wherever it wants one, and gives back what it has: pages are taken until
   there is none, and then given back one by one, until a program is started. Behind that as many are free as before. */
#include "mmu.h"
#include "print.h"
#include "service.h"

#define FIRST 0x00A00000

static uint32_t taken;

static void take_all(void)
{
    for (taken = 0; page_new(FIRST + taken * PGSIZE, PAGE_WRITE) == 0;)
        taken++;
}

static int give_one_back(void)
{
    page_drop(FIRST + --taken * PGSIZE);
    return 0;
}

void umain(int argc, char **argv)
{
    static char *words[] = {"spawned", "exit", 0};
    uint32_t refused = 0, before;
    int child;

    /* what the file server keeps of the disk is there from here on */
    wait(spawn((uint32_t)words[0], (uint32_t)words));
    take_all();
    before = taken;
    while ((child = spawn((uint32_t)words[0], (uint32_t)words)) == -E_NO_MEM && taken > 0) {
        give_one_back();
        refused++;
    }
    print_line("refused", refused);
    print_line("spawn", child);
    print_line("wait", wait(child));
    while (page_new(FIRST + taken * PGSIZE, PAGE_WRITE) == 0)
        taken++;
    print_line("more are free than before", taken - before);
}
