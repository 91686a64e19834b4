/* A read whose buffer is no page, or one that may not be written, ends the program at the first such byte, and the place of the next byte has moved
   all the same, by all that was read. Each is done by a child, with a descriptor that its parent has, too. What ends no program: nothing is read. */
#include "mmu.h"
#include "print.h"
#include "service.h"

#define PAGE 0x00900000 /* and none behind it */
#define READONLY 0x00A00000
#define NOWHERE 0x30000000

static uint32_t fd;

static void place(void)
{
    static char byte;

    if (read(fd, (uint32_t)&byte, 1) == 1) {
        print("then comes ");
        cputs((uint32_t)&byte, 1);
        print("\n");
    } else {
        print("then comes the end\n");
    }
}

/* A child that may end by it. */
static void in_child(const char *what, uint32_t service_number, uint32_t va, uint32_t len)
{
    int child;

    print(what);
    print("\n");
    seek(fd, 0);
    child = fork();
    if (child < 0) {
        print_line("fork", child);
        exit();
    }
    if (child == 0) {
        print_line("answered", service(service_number, fd, va, len));
        exit();
    }
    wait(child);
    place();
}

void umain(int argc, char **argv)
{
    page_new(PAGE, PAGE_WRITE);
    page_new(READONLY, 0);
    fd = open((uint32_t) "newmotd", O_RDWR);
    print_line("open", fd);
    in_child("read into no page", SERVICE_read, NOWHERE, 5);
    in_child("read of more than there is", SERVICE_read, NOWHERE, 100);
    in_child("read over the end of a page", SERVICE_read, PAGE + PGSIZE - 3, 7);
    in_child("read up to the end of a page", SERVICE_read, PAGE + PGSIZE - 3, 3);
    in_child("read into a page that may not be written", SERVICE_read, READONLY + 1, 2);
    in_child("read of none into no page", SERVICE_read, NOWHERE, 0);
    in_child("stat into no page", SERVICE_stat, NOWHERE, 0);
    in_child("stat over the end of a page", SERVICE_stat, PAGE + PGSIZE - 130, 0);
    in_child("write from no page", SERVICE_write, NOWHERE, 5);
    in_child("write over the end of a page", SERVICE_write, PAGE + PGSIZE - 3, 7);
    in_child("write of none from no page", SERVICE_write, NOWHERE, 0);
    seek(fd, 27);
    print_line("read into no page at the end", read(fd, NOWHERE, 5));
    print_line("write of none from no page", write(fd, NOWHERE, 0));
    print_line("open of a path in no page", open(NOWHERE, O_RDONLY));
}
