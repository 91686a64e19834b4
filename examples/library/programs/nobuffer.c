/* A buffer of cputs inside of the fence where no page is: the environment ends with a line of its own. With a word the
   buffer begins in a page that is there, and ends in one that is not: nothing of it is printed. */
#include "print.h"
#include "service.h"

#define PAGE 0x00900000

void umain(int argc, char **argv)
{
    if (argc > 1) {
        print_line("page_new", page_new(PAGE, PAGE_WRITE));
        *(volatile uint32_t *)(PAGE + 0xFFC) = 0x0A636261; /* "abc" and a newline */
        cputs(PAGE + 0xFFC, 4);
        cputs(PAGE + 0xFFC, 5);
    } else {
        cputs(PAGE + 5, 1);
    }
    print("not reached\n");
}
