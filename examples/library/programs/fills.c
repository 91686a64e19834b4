/* Takes pages until none is left, which is the answer -4 (E_NO_MEM), and counted as refused in the note; it runs on, and
   what it has stays. How many there are is said by --frames. Of 300 frames the kernel keeps 20. The file server takes three: its directory,
   and the page for the records of open files with its table. The program takes eight: its directory, the page of its image with
   its table, the pages of its stack and of the stack of the library's handler of page faults, with one table for both, and the
   page of its descriptors with its table. Of the 269 others one is the table of the new pages. */
#include "mmu.h"
#include "print.h"
#include "service.h"

#define FIRST 0x10000000u

void umain(int argc, char **argv)
{
    uint32_t va = FIRST;
    int answer;

    while ((answer = page_new(va, PAGE_WRITE)) == 0) {
        *(volatile uint32_t *)va = va;
        va += PGSIZE;
    }
    print_number(PGNUM(va - FIRST));
    print_line(" pages, and then", answer);
    print_line("the last has", *(const volatile uint32_t *)(va - PGSIZE));
}
