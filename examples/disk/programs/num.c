/* Writes the lines of the files that its words name, or of descriptor 0, each with its number before it; the numbers go on from file to
   file. (MIT 6.828, lab 5: user/num.c) */
#include "input.h"
#include "output.h"

#define WIDTH 5

static char buffer[512];
static struct output output;
static uint32_t lines;
static int is_within; /* a line whose number is written */

static void number(uint32_t fd, const char *name)
{
    uint32_t count;

    while ((count = next_bytes(fd, name, buffer, sizeof buffer)) > 0)
        for (uint32_t k = 0; k < count; k++) {
            if (!is_within) {
                put_number(&output, ++lines, WIDTH);
                put_text(&output, " ");
            }
            put(&output, &buffer[k], 1);
            is_within = buffer[k] != '\n';
            if (!is_within)
                flush(&output);
        }
}

void umain(int argc, char **argv)
{
    output.fd = 1;
    for_inputs(argc, argv, number);
    flush(&output);
}
