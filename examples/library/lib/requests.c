/* The services that ask the file server and nothing of a descriptor, by their names. */
#include "service.h"

int remove(uint32_t path)
{
    return service(SERVICE_remove, path, 0, 0);
}

int sync(void)
{
    return service(SERVICE_sync, 0, 0, 0);
}
