/* What programs with doubles are linked with, and examples/port has not. */
#include <errno.h>
#include <stdlib.h>

int sscanf(const char *text, const char *format, ...)
{
    (void)text, (void)format;
    return 0;
}

double difftime(time_t end, time_t begin)
{
    return (double)end - (double)begin;
}

char *strptime(const char *text, const char *format, struct tm *store)
{
    (void)text, (void)format, (void)store;
    return NULL;
}

size_t strftime(char *buffer, size_t size, const char *format, const struct tm *parts)
{
    (void)buffer, (void)size, (void)format, (void)parts;
    return 0;
}

/* ---- what musl's sources ask for: the number of the last error, and what locks the buffer of snprintf */

int __stdio_exit_needed;

int *___errno_location(void)
{
    return &errno;
}

int __lockfile(FILE *file)
{
    (void)file;
    return 0;
}

void __unlockfile(FILE *file)
{
    (void)file;
}

/* characters have a byte */
int wctomb(char *store, wchar_t character)
{
    if (!store)
        return 0;
    *store = (char)character;
    return 1;
}
