/* What open_file does in each mode, and what it refuses, in order: fffffffd is 3 (E_INVAL), fffffff6 is 10 (E_MAX_OPEN), fffffff5 is 11
   (E_NOT_FOUND), fffffff4 is 12 (E_BAD_PATH) and fffffff3 is 13 (E_FILE_EXISTS), negated. The lowest descriptor that is free is taken. */
#include "mmu.h"
#include "print.h"
#include "service.h"
#include "string.h"

#define PAGE 0x00900000
#define LAST 0x003FF000 /* the last page before the fence's first gap */
#define LONGEST_NAME 127

static void opened(const char *what, const char *path, uint32_t mode)
{
    print_line(what, open((uint32_t)path, mode));
}

/* It is opened, told how long it is, and closed. */
static void size_of(const char *path, uint32_t mode)
{
    static struct stat told;
    int fd = open((uint32_t)path, mode);

    print(path);
    print_line(" opens", fd);
    if (fd < 0)
        return;
    print_line("  stat", stat(fd, (uint32_t)&told));
    print_line("  its size", told.size);
    print_line("  read", read(fd, PAGE + 64, 1));
    print_line("  write", write(fd, PAGE + 64, 1));
    print_line("  close", close(fd));
}

static void of_modes(void)
{
    size_of("short", O_RDONLY);
    size_of("short", O_WRONLY);
    size_of("short", O_RDWR);
    size_of("short", O_CREAT);
    size_of("short", O_EXCL);
    size_of("short", O_TRUNC);
    size_of("short", O_CREAT | O_EXCL);
    size_of("made/", O_CREAT | O_WRONLY);
    size_of("made", O_CREAT | O_EXCL | O_RDWR);
    size_of("missing", O_EXCL);
    size_of("missing", O_TRUNC);
    size_of("twice", O_CREAT | O_EXCL | O_TRUNC | O_RDWR);
}

static void of_bad_modes(void)
{
    opened("mode 3", "short", 3);
    opened("mode 4", "short", 4);
    opened("mode 104", "short", 0x104);
    opened("mode 800", "short", 0x800);
    opened("mode ffffffff", "short", 0xFFFFFFFF);
    print_line("mode 3 with a path in no page", open(0x30000000, 3));
    print_line("mode 104 with a path in no page", open(0x30000000, 0x104));
    print_line("mode 800 with a path in no page", open(0x30000000, 0x800));
    print_line("mode 3 with a path at 0", open(0, 3));
}

static void of_others(void)
{
    opened("the root", "/", O_RDONLY);
    opened("the root, made", "/", O_CREAT);
    opened("the root, made anew", "/", O_CREAT | O_EXCL);
    opened("the empty path", "", O_RDONLY);
    opened("missing", "missing", O_RDWR);
    opened("in what is missing", "missing/x", O_CREAT);
    opened("in a file", "kept/x", O_CREAT);
}

static uint32_t letters(uint32_t va, uint32_t count)
{
    memset((char *)va, 'y', count);
    ((char *)va)[count] = 0;
    return va;
}

static void of_long_paths(void)
{
    print_line("127 letters", open(letters(PAGE, LONGEST_NAME), O_CREAT));
    print_line("128 letters", open(letters(PAGE, LONGEST_NAME + 1), O_CREAT));
    strcpy((char *)PAGE, "none/");
    letters(PAGE + 5, LONGEST_NAME + 1);
    print_line("128 letters behind none", open(PAGE, O_RDONLY));
    memset((char *)PAGE, '/', MAXPATHLEN);
    ((char *)PAGE)[MAXPATHLEN - 1] = 0;
    print_line("1023 slashes", open(PAGE, O_RDONLY));
    ((char *)PAGE)[MAXPATHLEN - 1] = '/';
    print_line("1024 slashes", open(PAGE, O_RDONLY));
    memset((char *)PAGE + PGSIZE - MAXPATHLEN, '/', MAXPATHLEN);
    print_line("1024 slashes at the end of a page", open(PAGE + PGSIZE - MAXPATHLEN, O_RDONLY));
    memcpy((char *)LAST + PGSIZE - 5, "kept", 5);
    print_line("at the fence's end", open(LAST + PGSIZE - 5, O_RDONLY));
    memcpy((char *)LAST + PGSIZE - 4, "kept", 4);
    print_line("over the fence's end", open(LAST + PGSIZE - 4, O_RDONLY));
    print_line("outside of the fence", open(LAST + PGSIZE, O_RDONLY));
}

/* Descriptors are taken until there is none: 0 and 1 are there, and two files were opened above and not closed. */
static void of_many(void)
{
    int fd;

    close(1);
    print_line("the lowest", open((uint32_t) "kept", O_RDONLY));
    while ((fd = open((uint32_t) "kept", O_RDONLY)) >= 0)
        if (fd == MAXFD - 1)
            print_line("the last", fd);
    print_line("one more", fd);
    opened("one more, missing", "missing", O_RDONLY);
    opened("one more, a bad mode", "kept", 3);
    print_line("one more, a long path", open(PAGE + PGSIZE - MAXPATHLEN, O_RDONLY));
    close(7);
    opened("behind close of 7, missing", "missing", O_RDONLY);
    opened("behind close of 7", "kept", O_RDONLY);
}

void umain(int argc, char **argv)
{
    page_new(PAGE, PAGE_WRITE);
    page_new(LAST, PAGE_WRITE);
    of_modes();
    of_bad_modes();
    of_others();
    of_long_paths();
    of_many();
    strcpy((char *)PAGE + PGSIZE - 8, "kept///");
    ((char *)PAGE)[PGSIZE - 1] = '/';
    print_line("into no page", open(PAGE + PGSIZE - 8, O_RDONLY));
}
