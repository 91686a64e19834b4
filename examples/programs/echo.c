/* Reads the console's input to its end, and prints each line with its number. The input's end is the byte 4 (Ctrl-D), which
   the kernel answers for ever. (JOS reads its keyboard by the same call) */
#include "lib.h"

void umain(int argc, char **argv)
{
    char line[80];
    size_t used = 0;
    uint32_t lines = 0;
    int c;

    do {
        c = getchar();
        if (c != '\n' && c != 4) {
            line[used++] = c;
        }
        if (used == sizeof line - 1 || c == '\n' || (c == 4 && used > 0)) {
            line[used] = 0;
            cprintf("%d: %s\n", ++lines, line);
            used = 0;
        }
    } while (c != 4);
}
