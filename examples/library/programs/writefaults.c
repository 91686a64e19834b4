/* write of a buffer inside of the fence that is not there: the environment ends with the line of a page fault at the byte, told for
   the instruction behind INT 0x40. With `region` no page of the region is there; with `across` the buffer begins in a page that is
   there, and ends in one that is not: nothing of it is printed. */
#include "mmu.h"
#include "print.h"
#include "service.h"
#include "string.h"

#define PAGE 0x00900000
#define REGION 0x30000000

void umain(int argc, char **argv)
{
    if (argc == 1) {
        write(1, PAGE + 5, 1);
    } else if (strcmp(argv[1], "region") == 0) {
        write(1, REGION + 8, 4096);
    } else {
        print_line("page_new", page_new(PAGE, PAGE_WRITE));
        memcpy((void *)(PAGE + PGSIZE - 4), "abc\n", 4);
        write(1, PAGE + PGSIZE - 4, 4);
        write(1, PAGE + PGSIZE - 4, 5);
    }
    print("not reached\n");
}
