/* Where no frame is left the services on files answer fffffffc, which is 4 (E_NO_MEM), negated: for the page of the request, for that of the file's place,
   for a block that the file server reads, and for the table of descriptors; and behind that all goes on. Pages are taken until there is none, and
   then given back one by one. */
#include "mmu.h"
#include "print.h"
#include "service.h"

#define FIRST 0x00A00000

void umain(int argc, char **argv)
{
    static char buffer[8];
    uint32_t va = FIRST, given = 0;
    int fd;

    while (page_new(va, PAGE_WRITE) == 0)
        va += PGSIZE;
    while ((fd = open((uint32_t) "short", O_RDWR)) == -E_NO_MEM) {
        va -= PGSIZE;
        page_drop(va);
        given++;
    }
    print_line("pages that were given back for an open", given);
    print_line("opened", fd);
    while (page_new(va, PAGE_WRITE) == 0)
        va += PGSIZE;
    print_line("seek", seek(fd, 0));
    print_line("set_size", set_size(fd, 1));
    print_line("read", read(fd, (uint32_t)buffer, 5));
    print_line("write", write(fd, (uint32_t) "bytes", 5));
    print_line("stat", stat(fd, FIRST));
    va -= PGSIZE;
    page_drop(va);
    print_line("read", read(fd, (uint32_t)buffer, 5));
    print(buffer);
    print("\n");
    print_line("seek", seek(fd, 0));
    print_line("write", write(fd, (uint32_t) "bytes", 5));
    print_line("set_size", set_size(fd, 3));
    print_line("stat", stat(fd, FIRST));
    print_line("its size", *(uint32_t *)(FIRST + 128));
    print_line("sync", sync());
}
