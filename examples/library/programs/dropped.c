/* A page that is dropped is not there any more; to drop it again changes nothing, and to read it is a page fault. */
#include "print.h"
#include "service.h"

#define PAGE 0x00900000

void umain(int argc, char **argv)
{
    print_line("page_new", page_new(PAGE, PAGE_WRITE));
    *(volatile uint32_t *)PAGE = 0x12345678;
    print_line("it has", *(const volatile uint32_t *)PAGE);
    print_line("page_drop", page_drop(PAGE));
    print_line("page_drop", page_drop(PAGE));
    print_line("it has", *(const volatile uint32_t *)PAGE);
}
