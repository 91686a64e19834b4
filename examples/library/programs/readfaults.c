/* read of a byte into a page that is not there: the byte is taken, and the environment ends with the line of a page fault, told for
   the instruction behind INT 0x40. With `region` no page of the region is there; with `readonly` the page is there and may not be
   written, and with `shared` it is a shared one. A child ends so; the parent reads the next byte. */
#include "mmu.h"
#include "print.h"
#include "service.h"
#include "string.h"

#define PAGE 0x00900000
#define REGION 0x30000000

static void in_child(const char *word)
{
    if (*word == 0) {
        read(0, PAGE + 5, 1);
    } else if (strcmp(word, "region") == 0) {
        read(0, REGION + 8, 1);
    } else {
        print_line("page_new", page_new(PAGE, strcmp(word, "shared") == 0 ? PAGE_SHARED : 0));
        read(0, PAGE + 6, 1);
    }
    print("not reached\n");
}

void umain(int argc, char **argv)
{
    char byte = 0;
    int child = fork();

    if (child == 0) {
        in_child(argc > 1 ? argv[1] : "");
        exit();
    }
    wait(child);
    print_line("read", read(0, (uint32_t)&byte, 1));
    write(1, (uint32_t)&byte, 1);
    print("\n");
}
