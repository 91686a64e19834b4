/* The text of /newmotd comes to /motd in place of what stands there, which is printed before. (MIT 6.828, lab 5: user/writemotd.c) */
#include "print.h"
#include "service.h"

static char buffer[512];

static int opened(const char *path, uint32_t mode)
{
    int fd = open((uint32_t)path, mode);

    if (fd < 0) {
        print_line(path, fd);
        exit();
    }
    return fd;
}

/* From the place of the next byte to the end. */
static void copy(uint32_t from, uint32_t to)
{
    int count;

    while ((count = read(from, (uint32_t)buffer, sizeof buffer)) > 0)
        if (write(to, (uint32_t)buffer, count) != count)
            print("not all is written\n");
}

void umain(int argc, char **argv)
{
    uint32_t new = opened("/newmotd", O_RDONLY), old = opened("/motd", O_RDWR);

    print("OLD MOTD\n");
    copy(old, 1);
    print("===\n");
    seek(old, 0);
    set_size(old, 0);
    print("NEW MOTD\n");
    copy(new, old);
    seek(old, 0);
    copy(old, 1);
    print("===\n");
    close(new);
    close(old);
}
