/* Five bytes are written to a file that is made, and a letter is printed. */
#include "print.h"
#include "service.h"

void umain(int argc, char **argv)
{
    int fd = open((uint32_t) "new", O_WRONLY | O_CREAT);

    write(fd, (uint32_t) "bytes", 5);
    print("W\n");
}
