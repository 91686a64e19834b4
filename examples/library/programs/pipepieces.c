/* A thousand bytes go through a pipe, written in pieces of 7 and read in pieces of 5. A write moves all its bytes; a read may have less. The reader
   reads to the end; with a word it counts the bytes. */
#include "print.h"
#include "service.h"

#define BYTES 1000

static uint8_t buffer[BYTES];

static uint8_t byte_of(uint32_t k)
{
    return 3 * k + k / 256;
}

static void write_all(uint32_t fd)
{
    for (uint32_t k = 0; k < BYTES; k++)
        buffer[k] = byte_of(k);
    for (uint32_t done = 0; done < BYTES;) {
        uint32_t count = BYTES - done < 7 ? BYTES - done : 7;

        if (write(fd, (uint32_t)buffer + done, count) != (int)count)
            print("not all was written\n");
        done += count;
    }
}

void umain(int argc, char **argv)
{
    struct pipe ends;
    uint32_t done = 0, wrong = 0, great = 0;
    int child, came = -1;

    pipe(&ends);
    child = fork();
    if (child < 0) {
        print_line("fork", child);
        return;
    }
    if (child == 0) {
        close(ends.reading);
        write_all(ends.writing);
        return;
    }
    close(ends.writing);
    while ((argc == 1 || done < BYTES) && (came = read(ends.reading, (uint32_t)buffer, 5)) > 0)
        for (int k = 0; k < came; k++) {
            wrong += buffer[k] != byte_of(done++);
            great += came > 5;
        }
    if (argc == 1)
        print_line("at the end", came);
    wait(child);
    print_line("bytes", done);
    print_line("wrong", wrong);
    print_line("of reads of more than 5", great);
}
