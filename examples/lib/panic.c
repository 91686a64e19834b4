/* (JOS: lib/panic.c) */
#include "lib.h"

/* The breakpoint ends the environment, so that the kernel's line is there too, which a program cannot leave out. */
void _panic(const char *file, int line, const char *fmt, ...)
{
    char message[192];
    va_list ap;

    va_start(ap, fmt);
    vsnprintf(message, sizeof message, fmt, ap);
    va_end(ap);
    cprintf("[%08x] user panic at %s:%d: %s\n", sys_getenvid(), file, line, message);
    for (;;)
        breakpoint();
}
