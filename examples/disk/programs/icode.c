/* Prints /motd by cputs, piece by piece, and then starts /init, with words; it does not wait for its end. (MIT 6.828, lab 5: user/icode.c) */
#include "print.h"
#include "service.h"

static char buffer[512];

void umain(int argc, char **argv)
{
    static const char *const words[] = { "/init", "initarg1", "initarg2", 0 };
    int fd, count, child;

    print("icode: open /motd\n");
    fd = open((uint32_t) "/motd", O_RDONLY);
    if (fd < 0) {
        print_line("icode: open", fd);
        return;
    }
    print("icode: read /motd\n");
    while ((count = read(fd, (uint32_t)buffer, sizeof buffer)) > 0)
        cputs((uint32_t)buffer, count);
    print("icode: close /motd\n");
    close(fd);
    print("icode: spawn /init\n");
    child = spawn((uint32_t)words[0], (uint32_t)words);
    if (child < 0)
        print_line("icode: spawn", child);
}
