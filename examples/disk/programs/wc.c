/* Counts the newlines, the words and the bytes of the files that its words name, or of descriptor 0, and writes a line for each. A word is a
   run of bytes without blanks. */
#include "input.h"
#include "output.h"
#include "string.h"

static char buffer[512];
static struct output output;

static int is_blank(char byte)
{
    return byte != 0 && strchr(" \t\n\v\f\r", byte) != 0;
}

static void count(uint32_t fd, const char *name)
{
    uint32_t came, lines = 0, words = 0, bytes = 0;
    int is_within = 0; /* a word that is counted */

    while ((came = next_bytes(fd, name, buffer, sizeof buffer)) > 0) {
        bytes += came;
        for (uint32_t k = 0; k < came; k++) {
            lines += buffer[k] == '\n';
            words += !is_within && !is_blank(buffer[k]);
            is_within = !is_blank(buffer[k]);
        }
    }
    put_number(&output, lines, 0);
    put_text(&output, " ");
    put_number(&output, words, 0);
    put_text(&output, " ");
    put_number(&output, bytes, 0);
    put_text(&output, " ");
    put_text(&output, name);
    put_text(&output, "\n");
    flush(&output);
}

void umain(int argc, char **argv)
{
    output.fd = 1;
    for_inputs(argc, argv, count);
}
