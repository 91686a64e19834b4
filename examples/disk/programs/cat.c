/* Writes the files that its words name, one behind the other, or what it reads from descriptor 0. (MIT 6.828, lab 5: user/cat.c) */
#include "input.h"
#include "output.h"

static char buffer[FILE_WRITE_MAX];

static void copy(uint32_t fd, const char *name)
{
    uint32_t count;

    while ((count = next_bytes(fd, name, buffer, sizeof buffer)) > 0)
        write_all(1, buffer, count);
}

void umain(int argc, char **argv)
{
    for_inputs(argc, argv, copy);
}
