/* Single bytes of the console. (JOS: lib/console.c) */
#include "lib.h"

void cputchar(int c)
{
    char byte = c;

    sys_cputs(&byte, 1);
}

int getchar(void)
{
    return sys_cgetc();
}
