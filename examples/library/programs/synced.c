/* A file is made, bytes are written to its first block, the disk gets what was changed, and bytes are written to the second block, which the disk gets
   behind the run. With a word, sync is left out; with `twice`, sync is asked for twice and ends it; with `nothing`, all that is asked for changes nothing.
   fffffff7 is 9 (E_NO_DISK), negated. */
#include "mmu.h"
#include "print.h"
#include "service.h"
#include "string.h"

#define FAR 4235264

static void change_nothing(void)
{
    static struct stat told;
    int fd = open((uint32_t) "synced", O_RDWR);

    print_line("open", fd);
    print_line("write of none", write(fd, (uint32_t) "bytes", 0));
    print_line("seek", seek(fd, FAR));
    print_line("write of none behind the end", write(fd, (uint32_t) "bytes", 0));
    print_line("write of one there", write(fd, (uint32_t) "bytes", 1));
    stat(fd, (uint32_t)&told);
    print_line("set_size to its size", set_size(fd, told.size));
    print_line("open", open((uint32_t) "none", O_RDWR));
    print_line("remove", remove((uint32_t) "none"));
    print_line("sync", sync());
    print_line("sync", sync());
}

/* What the first sync has written the disk does not lack any more. */
static void sync_twice(void)
{
    int fd = open((uint32_t) "new", O_RDWR | O_CREAT);

    print_line("open", fd);
    print_line("write", write(fd, (uint32_t) "bytes", 5));
    print_line("sync", sync());
    print_line("sync", sync());
}

void umain(int argc, char **argv)
{
    int fd;

    if (argc > 1 && strcmp(argv[1], "nothing") == 0) {
        change_nothing();
        return;
    }
    if (argc > 1 && strcmp(argv[1], "twice") == 0) {
        sync_twice();
        return;
    }
    fd = open((uint32_t) "new", O_RDWR | O_CREAT);
    print_line("open", fd);
    print_line("write", write(fd, (uint32_t) "bytes", 5));
    if (argc == 1)
        print_line("sync", sync());
    print_line("seek", seek(fd, PGSIZE));
    print_line("write", write(fd, (uint32_t) "more", 4));
}
