/* What the library asks of the system under it: exo/system.c and run/system.c have it, each for its command. */
#ifndef PORT_SYSTEM_H
#define PORT_SYSTEM_H

#include <stdbool.h>
#include <stddef.h>

#define PAGE 4096u

/* the most pages of a run, by --frames */
#define PAGES_MAX 65536u

/* the memory that the heap may take, and the address above the stack, whose first page is there at the beginning */
#define HEAP_BEGIN 0x10000000u
#define HEAP_END (HEAP_BEGIN + PAGES_MAX * PAGE)
#define STACK_TOP 0xEEBFE000u

/* Puts bytes on the console, 4,096 by a call. */
void port_write(const char *bytes, size_t count);

/* The next byte of the console's input, or -1 where there is none any more. */
int port_read(void);

/* Maps a page of zeros. Answers whether there was one. */
bool port_map(unsigned address);
void port_unmap(unsigned address);

/* Files of the disk, by descriptors; in `exo` there are none. They answer a number of errno, negated, where they
   fail: else the descriptor, how many bytes there were, or 0. */
enum { PORT_READ = 0, PORT_WRITE = 1, PORT_READ_WRITE = 2, PORT_CREATE = 0x100, PORT_TRUNCATE = 0x200 };

int port_open(const char *path, int mode);
int port_close(int descriptor);
int port_read_from(int descriptor, char *bytes, size_t count);
int port_write_to(int descriptor, const char *bytes, size_t count);
int port_seek(int descriptor, unsigned offset);
int port_size(int descriptor);
int port_remove(const char *path);

void port_exit(void) __attribute__((noreturn));

/* start.c: what exo/system.c and run/system.c go on to */
void port_begin(int argc, char **argv) __attribute__((noreturn));

#endif
