/* Files in directories: `rooms` has the file `inner` and the directory `sub`, which has none. fffffffd is 3 (E_INVAL), fffffff5 is 11
   (E_NOT_FOUND) and fffffff3 is 13 (E_FILE_EXISTS), negated. A directory that is full gets a block more. */
#include "print.h"
#include "service.h"
#include "string.h"

static struct stat told;
static char buffer[64];

static int opened(const char *path, uint32_t mode)
{
    int fd = open((uint32_t)path, mode);

    print_line(path, fd);
    return fd;
}

static void written(const char *path, uint32_t mode, const char *text)
{
    int fd = opened(path, mode);

    if (fd < 0)
        return;
    print_line("  write", write(fd, (uint32_t)text, strlen(text)));
    close(fd);
}

static void told_of(const char *path)
{
    int count, fd = opened(path, O_RDONLY);

    if (fd < 0)
        return;
    stat(fd, (uint32_t)&told);
    print("  ");
    print(told.name);
    print_line(" has", told.size);
    count = read(fd, (uint32_t)buffer, sizeof buffer);
    print("  ");
    cputs((uint32_t)buffer, count);
    print("\n");
    close(fd);
}

static void removed(const char *path)
{
    print("without ");
    print_line(path, remove((uint32_t)path));
}

/* Seventeen, so that one record is in a block of its own; then all but the last two are removed. */
static void of_many(void)
{
    static char path[] = "rooms/sub/f00";
    int fd;

    for (uint32_t k = 0; k < 17; k++) {
        path[11] = '0' + k / 10;
        path[12] = '0' + k % 10;
        fd = open((uint32_t)path, O_WRONLY | O_CREAT | O_EXCL);
        if (fd < 0)
            print_line(path, fd);
        write(fd, (uint32_t)path + 10, 3);
        close(fd);
    }
    told_of("rooms/sub/f00");
    told_of("rooms/sub/f15");
    told_of("rooms/sub/f16");
    for (uint32_t k = 0; k < 15; k++) {
        path[11] = '0' + k / 10;
        path[12] = '0' + k % 10;
        if (remove((uint32_t)path) != 0)
            print_line(path, -1);
    }
    told_of("rooms/sub/f14");
    told_of("rooms/sub/f16");
}

void umain(int argc, char **argv)
{
    opened("rooms", O_RDONLY);
    opened("rooms/", O_CREAT);
    opened("rooms/sub", O_CREAT | O_EXCL);
    opened("rooms/none", O_RDWR);
    opened("rooms/none/x", O_CREAT);
    opened("rooms/inner/x", O_CREAT);
    written("rooms/inner", O_RDWR, "in a room");
    told_of("//rooms///inner/");
    written("/rooms/sub/new", O_WRONLY | O_CREAT, "in a room's room");
    told_of("rooms/sub/new");
    opened("rooms/new", O_RDONLY);
    written("rooms/new", O_WRONLY | O_CREAT, "another");
    told_of("rooms/new");
    told_of("rooms/sub/new");
    removed("rooms");
    removed("rooms/sub/");
    removed("rooms/sub/new");
    removed("rooms/sub/new");
    told_of("rooms/new");
    removed("rooms/new");
    of_many();
}
