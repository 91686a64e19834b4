/* What others start, which show by it what a program has from the one that starts it. By its words:
       page VA    the word at that address, which it makes greater by one
       read FD    the bytes that it reads of the descriptor, up to the end
       write FD   its own name, written to the descriptor
       open       which descriptor a file gets
       exit       nothing */
#include "print.h"
#include "service.h"
#include "string.h"

static uint32_t number(const char *word)
{
    uint32_t made = 0;

    for (; *word; word++)
        made = made * 16 + (*word <= '9' ? *word - '0' : *word - 'a' + 10);
    return made;
}

static void read_all(uint32_t fd)
{
    static char buffer[100];
    int came;

    while ((came = read(fd, (uint32_t)buffer, sizeof buffer)) > 0)
        cputs((uint32_t)buffer, came);
    print_line("read", came);
}

void umain(int argc, char **argv)
{
    const char *what = argv[1];

    if (strcmp(what, "page") == 0)
        print_line("the page has", (*(volatile uint32_t *)number(argv[2]))++);
    else if (strcmp(what, "read") == 0)
        read_all(number(argv[2]));
    else if (strcmp(what, "write") == 0)
        print_line("write", write(number(argv[2]), (uint32_t)argv[0], strlen(argv[0])));
    else if (strcmp(what, "open") == 0)
        print_line("open", open((uint32_t) "short", O_RDONLY));
}
