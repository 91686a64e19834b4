/* Bytes that go to a descriptor. */
#include "output.h"

#include "string.h"

void write_all(uint32_t fd, const char *bytes, uint32_t count)
{
    while (count > 0) {
        int taken = write(fd, (uint32_t)bytes, count);

        if (taken < 0)
            tell_error("write", taken);
        if (taken <= 0)
            exit();
        bytes += taken;
        count -= taken;
    }
}

void put(struct output *output, const char *bytes, uint32_t count)
{
    for (uint32_t k = 0; k < count; k++) {
        if (output->count == sizeof output->bytes)
            flush(output);
        output->bytes[output->count++] = bytes[k];
    }
}

void put_text(struct output *output, const char *text)
{
    put(output, text, strlen(text));
}

void put_number(struct output *output, uint32_t number, uint32_t width)
{
    char digits[10];
    uint32_t first = sizeof digits;

    do {
        digits[--first] = '0' + number % 10;
        number /= 10;
    } while (number > 0);
    for (uint32_t k = sizeof digits - first; k < width; k++)
        put(output, " ", 1);
    put(output, &digits[first], sizeof digits - first);
}

void flush(struct output *output)
{
    if (output->fd == CONSOLE)
        cputs((uint32_t)output->bytes, output->count);
    else
        write_all(output->fd, output->bytes, output->count);
    output->count = 0;
}

void tell_error(const char *name, int answer)
{
    static struct output line;

    line.fd = CONSOLE;
    put_text(&line, name);
    put_text(&line, ": error ");
    put_number(&line, -answer, 0);
    put_text(&line, "\n");
    flush(&line);
}
