/* A read into a page that waits to be copied, where no frame is left for the copy: the byte is taken, and the environment ends with the
   line of a page fault. The note counts that as refused, and the page_new behind the child's last page. The child's frames are free
   then, and the parent reads the next byte into its own page. */
#include "mmu.h"
#include "print.h"
#include "service.h"

#define PAGE 0x00900000
#define FIRST 0x10000000u

static void in_child(void)
{
    struct message message;
    uint32_t va = FIRST;

    /* by then the parent has copied its stack */
    receive(0, 0, &message);
    while (page_new(va, PAGE_WRITE) == 0)
        va += PGSIZE;
    read(0, PAGE + 6, 1);
    print("not reached\n");
}

void umain(int argc, char **argv)
{
    int child;

    page_new(PAGE, PAGE_WRITE);
    child = fork();
    if (child == 0) {
        in_child();
        exit();
    }
    send(child, 0, 0);
    wait(child);
    print_line("read", read(0, PAGE + 6, 1));
    print_line("the page has", *(volatile uint32_t *)(PAGE + 4));
}
