/* On a disk that has no free block a file can be made, where a record is empty, and nothing can be written into it: fffffff7 is 9 (E_NO_DISK), negated.
   Bits behind the last block's say nothing. */
#include "print.h"
#include "service.h"

void umain(int argc, char **argv)
{
    static char buffer[4];
    int fd = open((uint32_t) "new", O_RDWR | O_CREAT);

    print_line("open", fd);
    print_line("write", write(fd, (uint32_t) "bytes", 5));
    print_line("set_size", set_size(fd, 1));
    print_line("write of none", write(fd, (uint32_t) "bytes", 0));
    print_line("read", read(fd, (uint32_t)buffer, sizeof buffer));
    print_line("sync", sync());
}
