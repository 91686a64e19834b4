/* Asks for the services on files again and again, for files.sh:

       files WHAT TIMES SIZE

   WHAT is one of `open` (with its close), `seek`, `read` and `write` (so many bytes at the beginning of the file, each with a seek), `stat`, or
   `copy`: from the file `source` to the file `target`, in pieces of so many bytes. */
#include "service.h"
#include "string.h"

#define BUFFER 0x00900000u

static uint32_t number_of(const char *text)
{
    uint32_t number = 0;

    while (*text)
        number = number * 10 + (*text++ - '0');
    return number;
}

static int opened(const char *path, uint32_t mode)
{
    int fd = open((uint32_t)path, mode);

    if (fd < 0)
        exit();
    return fd;
}

static void copy(uint32_t from, uint32_t to, uint32_t size)
{
    int count;

    while ((count = read(from, BUFFER, size)) > 0)
        if (write(to, BUFFER, count) != count)
            exit();
}

static void repeat(char what, uint32_t times, uint32_t size)
{
    static struct stat told;
    int fd = opened("source", O_RDWR);

    for (; times > 0; times--)
        switch (what) {
        case 'o':
            close(opened("source", O_RDONLY));
            break;
        case 's':
            seek(fd, 0);
            break;
        case 'r':
            seek(fd, 0);
            read(fd, BUFFER, size);
            break;
        case 'w':
            seek(fd, 0);
            write(fd, BUFFER, size);
            break;
        case 't':
            stat(fd, (uint32_t)&told);
            break;
        }
}

void umain(int argc, char **argv)
{
    page_new(BUFFER, PAGE_WRITE);
    if (argc < 4)
        return;
    if (strcmp(argv[1], "copy") == 0)
        copy(opened("source", O_RDONLY), opened("target", O_RDWR | O_CREAT | O_TRUNC), number_of(argv[3]));
    else
        repeat(strcmp(argv[1], "stat") == 0 ? 't' : argv[1][0], number_of(argv[2]), number_of(argv[3]));
}
