/* The services by their names. */
#include "service.h"

void exit(void)
{
    for (;;)
        service(SERVICE_exit, 0, 0, 0);
}

int cputs(uint32_t va, uint32_t len)
{
    return service(SERVICE_cputs, va, len, 0);
}

uint32_t getid(void)
{
    return service(SERVICE_getid, 0, 0, 0);
}

void yield(void)
{
    service(SERVICE_yield, 0, 0, 0);
}

int fork(void)
{
    return service(SERVICE_fork, 0, 0, 0);
}

int wait(uint32_t id)
{
    return service(SERVICE_wait, id, 0, 0);
}

int page_new(uint32_t va, uint32_t flags)
{
    return service(SERVICE_page_new, va, flags, 0);
}

int page_drop(uint32_t va)
{
    return service(SERVICE_page_drop, va, 0, 0);
}

int send(uint32_t id, uint32_t value, uint32_t va)
{
    return service(SERVICE_send, id, value, va);
}

int receive(uint32_t va, uint32_t from, struct message *message)
{
    int answer;

    __asm__ volatile("int %4"
                     : "=a"(answer), "=d"(message->sender), "=c"(message->value), "=b"(message->page)
                     : "i"(T_SERVICE), "a"(SERVICE_receive), "d"(va), "c"(from)
                     : "memory", "cc");
    return answer;
}
