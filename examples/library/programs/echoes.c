/* The console's input, written to the console a byte at a time until read answers 0: at the input's end, or for a byte 4. With a
   word it asks for up to 4,096 bytes at a time, and gets one. (MIT 6.828, lab 5: user/cat.c, lib/console.c) */
#include "service.h"

static char buffer[TRANSFER_MAX];

void umain(int argc, char **argv)
{
    uint32_t wanted = argc > 1 ? sizeof buffer : 1;
    int count;

    while ((count = read(0, (uint32_t)buffer, wanted)) > 0)
        write(1, (uint32_t)buffer, count);
}
