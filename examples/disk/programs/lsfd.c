/* Tells what each descriptor that is open names: on the console, or with the word -1 by descriptor 1. The files that further words name it
   opens before. (MIT 6.828, lab 5: user/lsfd.c) */
#include "output.h"
#include "string.h"

static struct output output;
static struct stat told;

static void tell(uint32_t fd)
{
    put_text(&output, "fd ");
    put_number(&output, fd, 0);
    put_text(&output, ": name ");
    put_text(&output, told.name);
    put_text(&output, " isdir ");
    put_number(&output, told.is_directory, 0);
    put_text(&output, " size ");
    put_number(&output, told.size, 0);
    put_text(&output, "\n");
    flush(&output);
}

void umain(int argc, char **argv)
{
    int first = argc > 1 && strcmp(argv[1], "-1") == 0 ? 2 : 1;

    output.fd = first == 2 ? 1 : CONSOLE;
    for (int k = first; k < argc; k++) {
        int fd = open((uint32_t)argv[k], O_RDONLY);

        if (fd < 0)
            tell_error(argv[k], fd);
    }
    for (uint32_t fd = 0; fd < MAXFD; fd++)
        if (stat(fd, (uint32_t)&told) == 0)
            tell(fd);
}
