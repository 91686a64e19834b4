/* The services on what a descriptor names, by their names. */
#include "service.h"

int read(uint32_t fd, uint32_t va, uint32_t len)
{
    return service(SERVICE_read, fd, va, len);
}

int write(uint32_t fd, uint32_t va, uint32_t len)
{
    return service(SERVICE_write, fd, va, len);
}

int seek(uint32_t fd, uint32_t offset)
{
    return service(SERVICE_seek, fd, offset, 0);
}

int stat(uint32_t fd, uint32_t va)
{
    return service(SERVICE_stat, fd, va, 0);
}

int set_size(uint32_t fd, uint32_t size)
{
    return service(SERVICE_set_size, fd, size, 0);
}
