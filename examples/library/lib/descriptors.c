/* The services on descriptors by their names. */
#include "service.h"

int close(uint32_t fd)
{
    return service(SERVICE_close, fd, 0, 0);
}

int dup(uint32_t old_fd, uint32_t new_fd)
{
    return service(SERVICE_dup, old_fd, new_fd, 0);
}
