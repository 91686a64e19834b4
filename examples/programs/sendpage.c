/* Sends a page with a message, both ways. The child's page comes to the parent without the right to write; the parent
   sends a page back, and then both have that one, and its frame has count 2 at UPAGES. (MIT 6.828, lab 4) */
#include "lib.h"

#define PARENT_PAGE ((char *)0x00A00000)
#define CHILD_PAGE ((char *)0x00B00000)

static uint32_t references(const void *va)
{
    return pages[PTE_FRAME(uvpt[PGNUM(va)])].pp_ref;
}

static void give_page(char *va, const char *text)
{
    int r;

    if ((r = sys_page_alloc(0, va, PTE_P | PTE_U | PTE_W)) < 0)
        panic("sys_page_alloc: %e", r);
    strcpy(va, text);
}

static void child(envid_t parent)
{
    give_page(CHILD_PAGE, "hello, parent");
    ipc_send(parent, 0, CHILD_PAGE, PTE_P | PTE_U);
    ipc_recv_from(parent, CHILD_PAGE, NULL); /* which stands in the place of the other */
    cprintf("%08x got a page: %s\n", sys_getenvid(), CHILD_PAGE);
    cprintf("%08x: its frame has count %d\n", sys_getenvid(), references(CHILD_PAGE));
    ipc_send(parent, 0, NULL, 0);
}

void umain(int argc, char **argv)
{
    envid_t parent = sys_getenvid();
    envid_t envid = fork();
    int perm;

    if (envid < 0)
        panic("fork: %e", envid);
    if (envid == 0) {
        child(parent);
        return;
    }
    ipc_recv_from(envid, PARENT_PAGE, &perm);
    cprintf("%08x got a page: %s\n", parent, PARENT_PAGE);
    cprintf("%08x: its permissions are %x, so it may not be written\n", parent, perm);
    give_page(PARENT_PAGE, "hello, child"); /* a new page in the place of the child's */
    ipc_send(envid, 0, PARENT_PAGE, PTE_P | PTE_U | PTE_W);
    ipc_recv_from(envid, NULL, NULL);
    wait(envid);
    cprintf("%08x: the child has ended, and the frame has count %d\n", parent, references(PARENT_PAGE));
}
