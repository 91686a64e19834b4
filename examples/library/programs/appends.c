/* Children append lines to a file: by a descriptor that they all have from their parent, so that each line comes behind those that are there;
   and then each by one of its own, which begins at the end of the file, so that the lines lie over one another. */
#include "print.h"
#include "service.h"
#include "string.h"

#define CHILDREN 4
#define LINES 6
#define LENGTH 24

static char line[LENGTH + 1];
static char all[CHILDREN * LINES * LENGTH];

static int opened(uint32_t mode)
{
    int fd = open((uint32_t) "log", mode);

    if (fd < 0) {
        print_line("open", fd);
        exit();
    }
    return fd;
}

static void append(uint32_t fd, uint32_t child)
{
    for (uint32_t k = 0; k < LINES; k++) {
        memset(line, '.', LENGTH);
        memcpy(line, "child   line  ", 14);
        line[6] = '0' + child;
        line[13] = '0' + k;
        line[LENGTH - 1] = '\n';
        if (write(fd, (uint32_t)line, LENGTH) != LENGTH)
            print("not all is written\n");
    }
}

static void make_children(int shared)
{
    int children[CHILDREN];

    for (uint32_t k = 0; k < CHILDREN; k++) {
        children[k] = fork();
        if (children[k] < 0) {
            print_line("fork", children[k]);
            exit();
        }
        if (children[k] == 0) {
            uint32_t fd = shared;

            if (shared < 0) {
                fd = opened(O_WRONLY);
                seek(fd, sizeof all);
            }
            append(fd, k);
            exit();
        }
    }
    for (uint32_t k = 0; k < CHILDREN; k++)
        wait(children[k]);
}

/* Each child's lines are there, in the order in which it wrote them. */
static void tell_lines(void)
{
    for (uint32_t child = 0; child < CHILDREN; child++) {
        uint32_t next = 0, others = 0;

        for (uint32_t k = 0; k < CHILDREN * LINES; k++)
            if (all[k * LENGTH + 6] == (char)('0' + child)) {
                if (all[k * LENGTH + 13] == (char)('0' + next) && all[k * LENGTH + LENGTH - 1] == '\n')
                    next++;
                else
                    others++;
            }
        print("child ");
        print_number(child);
        print(": ");
        print_number(next);
        print(" lines in order, ");
        print_number(others);
        print(" others\n");
    }
}

static uint32_t size_of(uint32_t fd)
{
    static struct stat told;

    stat(fd, (uint32_t)&told);
    return told.size;
}

void umain(int argc, char **argv)
{
    int fd = opened(O_RDWR | O_CREAT | O_TRUNC);

    make_children(fd);
    print_line("by one descriptor", size_of(fd));
    seek(fd, 0);
    print_line("read", read(fd, (uint32_t)all, sizeof all));
    tell_lines();
    make_children(-1);
    print_line("by one each", size_of(fd));
    print_line("read", read(fd, (uint32_t)all, sizeof all));
    print_line("the last line is of line", all[(LINES - 1) * LENGTH + 13] - '0');
}
