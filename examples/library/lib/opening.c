/* Files get descriptors. */
#include "service.h"

int open(uint32_t path, uint32_t mode)
{
    return service(SERVICE_open_file, path, mode, 0);
}
