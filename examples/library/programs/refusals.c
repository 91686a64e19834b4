/* What each service refuses, and what is at the limit and is not refused. An answer is an error as its number, negated:
   fffffffd is 3 (E_INVAL), fffffffe is 2 (E_BAD_ENV). What is refused changes nothing. */
#include "mmu.h"
#include "print.h"
#include "service.h"

#define WRITABLE 0x00A00000
#define READ_ONLY 0x00A01000
#define SHARED 0x00A02000
#define ABSENT 0x00A08000
#define ABSENT_REGION 0x30000000
#define SERVER 0x1000
#define NOBODY 0x1002

/* no addresses of pages that a program may have */
static const uint32_t no_pages[] = {
    0x00900001, 0x00900FFF, 0x00000000, 0x001FF000, 0x00400000, 0x007FF000, 0xD0000000,
    0xD03FF000, 0xEEBFE000, 0xEEBFF000, 0xEEC00000, 0xEF400000, 0xFFFFF000,
};

#define COUNT(array) (sizeof(array) / sizeof(array)[0])

/* the answers at addresses, one a line */
static void at_each(const char *what, uint32_t number, uint32_t with)
{
    for (uint32_t k = 0; k < COUNT(no_pages); k++) {
        print(what);
        print(" ");
        print_hex(no_pages[k]);
        print_line("", service(number, no_pages[k], with, 0));
    }
}

/* the same for the page of a message; 0 is no address there, and stands for none */
static void at_each_of_send(void)
{
    for (uint32_t k = 0; k < COUNT(no_pages); k++) {
        if (no_pages[k] == 0)
            continue;
        print("send the page ");
        print_hex(no_pages[k]);
        print_line("", send(NOBODY, 7, no_pages[k]));
    }
}

static void at_each_of_receive(void)
{
    struct message message;

    for (uint32_t k = 0; k < COUNT(no_pages); k++) {
        if (no_pages[k] == 0)
            continue;
        print("receive at ");
        print_hex(no_pages[k]);
        print_line("", receive(no_pages[k], 0, &message));
    }
}

static void of_cputs(void)
{
    print_line("cputs of 4097 bytes", cputs(WRITABLE, CPUTS_MAX + 1));
    print_line("cputs of ffffffff bytes", cputs(WRITABLE, 0xFFFFFFFF));
    print_line("cputs below the fence", cputs(0x001FFFFF, 1));
    print_line("cputs into the fence", cputs(0x001FFFFF, 2));
    print_line("cputs out of the fence", cputs(0x003FFFFF, 2));
    print_line("cputs over the stack's end", cputs(0xEEBFDFFF, 2));
    print_line("cputs over the last address", cputs(0xFFFFFFFF, 2));
    print_line("cputs of no bytes", cputs(WRITABLE, 0));
    print_line("cputs of no bytes at 0", cputs(0, 0));
    print_line("cputs of no bytes at ffffffff", cputs(0xFFFFFFFF, 0));
}

static void of_pages(void)
{
    print_line("page_new with 4", page_new(WRITABLE, 4));
    print_line("page_new with ffffffff", page_new(WRITABLE, 0xFFFFFFFF));
    print_line("page_new with 4 at 1", page_new(1, 4));
    at_each("page_new", SERVICE_page_new, PAGE_WRITE);
    at_each("page_drop", SERVICE_page_drop, 0);
    print_line("page_drop of none", page_drop(ABSENT));
    print_line("page_drop of none", page_drop(ABSENT_REGION));
    print_line("the page has", *(const volatile uint32_t *)WRITABLE);
}

static void of_wait(void)
{
    print_line("wait for 0", wait(0));
    print_line("wait for itself", wait(getid()));
    print_line("wait for nobody", wait(NOBODY));
    print_line("wait for another in its slot", wait(0x2001));
    print_line("wait for another in slot 0", wait(0x2000));
    print_line("wait for ffffffff", wait(0xFFFFFFFF));
}

static void of_messages(void)
{
    struct message message;

    print_line("send to 0", send(0, 7, 0));
    print_line("send to itself", send(getid(), 7, 0));
    print_line("send to the server", send(SERVER, 7, 0));
    at_each_of_send();
    print_line("send no page", send(NOBODY, 7, ABSENT));
    print_line("send no page", send(NOBODY, 7, ABSENT_REGION));
    print_line("send a page that may be written", send(NOBODY, 7, WRITABLE));
    print_line("send to nobody", send(NOBODY, 7, 0));
    print_line("send to another in its slot", send(0x2001, 7, 0));
    print_line("send nobody a page to read", send(NOBODY, 7, READ_ONLY));
    print_line("send nobody a shared page", send(NOBODY, 7, SHARED));
    at_each_of_receive();
    print_line("receive from itself", receive(0, getid(), &message));
    print_line("receive from the server", receive(0, SERVER, &message));
}

static void of_numbers(void)
{
    static const uint32_t numbers[] = {
        10, 11, 12, 13, 14, 15, 16, 17, 19, 21, 22, 0x40, 0x100, 0x80000001, 0xFFFFFFFF,
    };

    for (uint32_t k = 0; k < COUNT(numbers); k++) {
        print("number ");
        print_hex(numbers[k]);
        print_line("", service(numbers[k], WRITABLE, 1, 0));
    }
}

void umain(int argc, char **argv)
{
    page_new(WRITABLE, PAGE_WRITE);
    page_new(READ_ONLY, 0);
    page_new(SHARED, PAGE_WRITE | PAGE_SHARED);
    *(volatile uint32_t *)WRITABLE = 0x12345678;

    of_cputs();
    of_pages();
    of_wait();
    of_messages();
    of_numbers();
}
