/* Pipes are made. */
#include "service.h"

int pipe(struct pipe *pipe)
{
    int answer;

    __asm__ volatile("int %3"
                     : "=a"(answer), "=d"(pipe->reading), "=c"(pipe->writing)
                     : "i"(T_SERVICE), "a"(SERVICE_pipe)
                     : "memory", "cc");
    return answer;
}
