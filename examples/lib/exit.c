/* The end of the environment that calls it. (JOS: lib/exit.c) */
#include "lib.h"

void exit(void)
{
    for (;;)
        sys_env_destroy(0);
}
