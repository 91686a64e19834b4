/* The system under the library for `jos exo`: the calls of the kernel. */
#include "lib.h"
#include "system.h"

void port_write(const char *bytes, size_t count)
{
    for (; count > CPUTS_MAX; bytes += CPUTS_MAX, count -= CPUTS_MAX)
        sys_cputs(bytes, CPUTS_MAX);
    sys_cputs(bytes, count);
}

/* what cgetc answers where there is no input any more */
#define END_OF_INPUT 4

int port_read(void)
{
    int c = sys_cgetc();

    return c == END_OF_INPUT ? -1 : c;
}

bool port_map(unsigned address)
{
    return sys_page_alloc(0, (void *)address, PTE_P | PTE_U | PTE_W) == 0;
}

void port_unmap(unsigned address)
{
    sys_page_unmap(0, (void *)address);
}

/* ---- no files */

enum { NOT_IMPLEMENTED = -38 }; /* ENOSYS */

int port_open(const char *path, int mode)
{
    return NOT_IMPLEMENTED;
}

int port_close(int descriptor)
{
    return NOT_IMPLEMENTED;
}

int port_read_from(int descriptor, char *bytes, size_t count)
{
    return NOT_IMPLEMENTED;
}

int port_write_to(int descriptor, const char *bytes, size_t count)
{
    return NOT_IMPLEMENTED;
}

int port_seek(int descriptor, unsigned offset)
{
    return NOT_IMPLEMENTED;
}

int port_size(int descriptor)
{
    return NOT_IMPLEMENTED;
}

int port_remove(const char *path)
{
    return NOT_IMPLEMENTED;
}

void port_exit(void)
{
    for (;;)
        sys_env_destroy(0);
}

/* where ../lib/entry.S goes */
void libmain(int argc, char **argv)
{
    port_begin(argc, argv);
}
