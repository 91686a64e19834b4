/* What a filter reads. */
#include "input.h"

#include "output.h"

void for_inputs(int argc, char **argv, void (*with)(uint32_t fd, const char *name))
{
    if (argc < 2)
        with(0, "input");
    for (int k = 1; k < argc; k++) {
        int fd = open((uint32_t)argv[k], O_RDONLY);

        if (fd < 0) {
            tell_error(argv[k], fd);
            continue;
        }
        with(fd, argv[k]);
        close(fd);
    }
}

uint32_t next_bytes(uint32_t fd, const char *name, char *buffer, uint32_t size)
{
    int came = read(fd, (uint32_t)buffer, size);

    if (came < 0)
        tell_error(name, came);
    return came < 0 ? 0 : came;
}
