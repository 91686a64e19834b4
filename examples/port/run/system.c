/* The system under the library for `jos run`: the services. The console is what the descriptors 0 and 1 name at the
   beginning. */
#include "service.h"
#include "system.h"

void port_write(const char *bytes, size_t count)
{
    for (; count > CPUTS_MAX; bytes += CPUTS_MAX, count -= CPUTS_MAX)
        service(SERVICE_cputs, (uint32_t)bytes, CPUTS_MAX, 0);
    service(SERVICE_cputs, (uint32_t)bytes, count, 0);
}

int port_read(void)
{
    unsigned char c;

    return service(SERVICE_read, 0, (uint32_t)&c, 1) == 1 ? c : -1;
}

bool port_map(unsigned address)
{
    return service(SERVICE_page_new, address, PAGE_WRITE, 0) == 0;
}

void port_unmap(unsigned address)
{
    service(SERVICE_page_drop, address, 0, 0);
}

/* ---- files: what a service answers becomes a number of errno */

static int result(int answer)
{
    static const unsigned char numbers[] = {
        [E_INVAL] = 22,       /* EINVAL */
        [E_NO_MEM] = 12,      /* ENOMEM */
        [E_NO_DISK] = 28,     /* ENOSPC */
        [E_MAX_OPEN] = 24,    /* EMFILE */
        [E_NOT_FOUND] = 2,    /* ENOENT */
        [E_BAD_PATH] = 36,    /* ENAMETOOLONG */
        [E_FILE_EXISTS] = 17, /* EEXIST */
        [E_NOT_SUPP] = 95,    /* ENOTSUP */
    };
    unsigned error = -(unsigned)answer;

    if (answer >= 0)
        return answer;
    return error < sizeof numbers && numbers[error] ? -numbers[error] : -5; /* EIO */
}

/* the bits of the mode are those of open_file */
int port_open(const char *path, int mode)
{
    return result(service(SERVICE_open_file, (uint32_t)path, mode, 0));
}

int port_close(int descriptor)
{
    return result(service(SERVICE_close, descriptor, 0, 0));
}

int port_read_from(int descriptor, char *bytes, size_t count)
{
    return result(service(SERVICE_read, descriptor, (uint32_t)bytes, count));
}

int port_write_to(int descriptor, const char *bytes, size_t count)
{
    return result(service(SERVICE_write, descriptor, (uint32_t)bytes, count));
}

int port_seek(int descriptor, unsigned offset)
{
    return result(service(SERVICE_seek, descriptor, offset, 0));
}

int port_size(int descriptor)
{
    struct stat stat;
    int answer = result(service(SERVICE_stat, descriptor, (uint32_t)&stat, 0));

    return answer < 0 ? answer : (int)stat.size;
}

int port_remove(const char *path)
{
    return result(service(SERVICE_remove, (uint32_t)path, 0, 0));
}

void port_exit(void)
{
    for (;;)
        service(SERVICE_exit, 0, 0, 0);
}

/* where ../library/lib/entry.S goes */
void umain(int argc, char **argv)
{
    port_begin(argc, argv);
}
