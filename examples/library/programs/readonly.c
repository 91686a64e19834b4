/* A page that may be read and not written: the write is a page fault, and the environment ends. With a word, the page is
   a shared one. */
#include "print.h"
#include "service.h"

#define PAGE 0x00900000

void umain(int argc, char **argv)
{
    print_line("page_new", page_new(PAGE, argc > 1 ? PAGE_SHARED : 0));
    print_line("it has", *(const volatile uint32_t *)(PAGE + 4));
    *(volatile uint32_t *)(PAGE + 4) = 1;
    print("not reached\n");
}
