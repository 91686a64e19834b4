/* What a FILE is: a stream of the console, or a file of the disk. */
#ifndef PORT_STREAM_H
#define PORT_STREAM_H

#include <stdbool.h>
#include <stddef.h>
#include <stdio.h>

enum { NOTHING = -2 };

struct port_file {
    bool can_read, can_write;
    bool has_ended, has_failed;
    int back; /* what was put back, or NOTHING */

    /* of a file of the disk; a stream of the console has no buffer */
    char *buffer;
    bool appends;
    bool is_writing;  /* up to `at` the buffer is to be written; else from `at` up to `end` it was read */
    size_t at, end;
    int descriptor;
    unsigned offset;  /* where the descriptor reads and writes next */
    FILE *next;       /* the next one that is open */
};

/* files.c: bytes of a file. They answer how many. */
size_t port_write_file(FILE *file, const char *bytes, size_t count);
size_t port_read_file(FILE *file, char *bytes, size_t count);

/* Writes what is kept of one file, or of all (NULL). Answers 0, or EOF where a call failed. */
int port_flush_files(FILE *file);

#endif
