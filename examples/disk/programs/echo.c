/* Writes its words with a blank between two, and a newline behind them, which the word -n takes away. It is one write: a page has no more
   words than that takes. (MIT 6.828, lab 5: user/echo.c) */
#include "output.h"
#include "string.h"

static struct output output;

void umain(int argc, char **argv)
{
    int first = argc > 1 && strcmp(argv[1], "-n") == 0 ? 2 : 1;

    output.fd = 1;
    for (int k = first; k < argc; k++) {
        if (k > first)
            put_text(&output, " ");
        put_text(&output, argv[k]);
    }
    if (first == 1)
        put_text(&output, "\n");
    flush(&output);
}
