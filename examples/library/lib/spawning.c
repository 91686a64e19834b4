/* Programs are started. */
#include "service.h"

int spawn(uint32_t path, uint32_t argv)
{
    return service(SERVICE_spawn, path, argv, 0);
}
