/* The fence: touches an address, and tells what is there.

       fence read ADDRESS [PAGE]    a byte is read
       fence write ADDRESS [PAGE]   a byte is written, 1, and then read
       fence word ADDRESS [PAGE]    four bytes are read
       fence run ADDRESS [PAGE]     the program goes there

   With PAGE, a page that may be written is put there before. Outside of the fence it is trap 13, and inside, where no page
   is or the page may not be written, a page fault. */
#include "print.h"
#include "service.h"
#include "string.h"

static uint32_t hex(const char *digits)
{
    uint32_t number = 0;

    for (; *digits; digits++)
        number = number * 16 + (*digits <= '9' ? *digits - '0' : *digits - 'a' + 10);
    return number;
}

void umain(int argc, char **argv)
{
    uint32_t va = hex(argv[2]);

    if (argc > 3)
        page_new(hex(argv[3]), PAGE_WRITE);
    if (!strcmp(argv[1], "run"))
        ((void (*)(void))va)();
    if (!strcmp(argv[1], "write"))
        *(volatile uint8_t *)va = 1;
    if (!strcmp(argv[1], "word"))
        print_line("there is", *(const volatile uint32_t *)va);
    else
        print_line("there is", *(const volatile uint8_t *)va);
}
