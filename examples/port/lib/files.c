/* Files of the disk, which `run` has. A file has a buffer, which has bytes that were read, or bytes that are to be
   written. */
#include <errno.h>
#include <stdlib.h>
#include <string.h>

#include "stream.h"
#include "system.h"

static FILE *open_files;

/* Notes that a call failed. Answers EOF. */
static int fail(FILE *file, int error)
{
    errno = -error;
    if (file)
        file->has_failed = true;
    return EOF;
}

static int seek_to(FILE *file, unsigned offset)
{
    int error = port_seek(file->descriptor, offset);

    if (error < 0)
        return fail(file, error);
    file->offset = offset;
    return 0;
}

/* Writes what the buffer has, to the end of the file where it is open for that. */
static int write_buffer(FILE *file)
{
    size_t count = file->at;
    int size = file->appends ? port_size(file->descriptor) : 0;

    file->at = 0;
    if (size < 0)
        return fail(file, size);
    if (file->appends && seek_to(file, size) != 0)
        return EOF;
    for (size_t done = 0; done < count;) {
        int n = port_write_to(file->descriptor, file->buffer + done, count - done);
        if (n <= 0)
            return fail(file, n);
        done += n;
        file->offset += n;
    }
    return 0;
}

/* Makes the buffer empty: what was to be written is written, and of what was read ahead the file stands before it. */
static int empty_buffer(FILE *file)
{
    size_t ahead = file->end - file->at;

    if (file->is_writing) {
        file->is_writing = false;
        return write_buffer(file);
    }
    file->at = file->end = 0;
    return ahead > 0 ? seek_to(file, file->offset - ahead) : 0;
}

int port_flush_files(FILE *file)
{
    int answer = 0;

    if (file)
        return file->is_writing ? write_buffer(file) : 0;
    for (file = open_files; file; file = file->next)
        if (file->is_writing && write_buffer(file) != 0)
            answer = EOF;
    return answer;
}

size_t port_write_file(FILE *file, const char *bytes, size_t count)
{
    size_t done = 0;

    if (!file->is_writing && empty_buffer(file) != 0)
        return 0;
    file->is_writing = true;
    file->end = 0;
    while (done < count) {
        size_t part = BUFSIZ - file->at;
        if (part > count - done)
            part = count - done;
        memcpy(file->buffer + file->at, bytes + done, part);
        file->at += part;
        done += part;
        if (file->at == BUFSIZ && write_buffer(file) != 0)
            break;
    }
    return done;
}

/* Reads some bytes ahead. Answers how many there are in the buffer then. */
static size_t read_buffer(FILE *file)
{
    int n = port_read_from(file->descriptor, file->buffer, BUFSIZ);

    if (n < 0)
        fail(file, n);
    if (n == 0)
        file->has_ended = true;
    file->at = 0;
    file->end = n > 0 ? n : 0;
    file->offset += file->end;
    return file->end;
}

size_t port_read_file(FILE *file, char *bytes, size_t count)
{
    size_t done = 0;

    if (file->is_writing && empty_buffer(file) != 0)
        return 0;
    while (done < count && (file->at < file->end || read_buffer(file) > 0)) {
        size_t part = file->end - file->at;
        if (part > count - done)
            part = count - done;
        memcpy(bytes + done, file->buffer + file->at, part);
        file->at += part;
        done += part;
    }
    return done;
}

FILE *fopen(const char *path, const char *mode)
{
    bool changes = strchr(mode, '+') != NULL, reads = mode[0] == 'r';
    int how = changes ? PORT_READ_WRITE : reads ? PORT_READ : PORT_WRITE;
    FILE *file;

    if (!*mode || !strchr("rwa", mode[0])) {
        errno = EINVAL;
        return NULL;
    }
    if (!reads)
        how |= PORT_CREATE;
    if (mode[0] == 'w')
        how |= PORT_TRUNCATE;
    if (!(file = malloc(sizeof *file + BUFSIZ)))
        return NULL;
    *file = (struct port_file){
        .can_read = reads || changes,
        .can_write = !reads || changes,
        .back = NOTHING,
        .buffer = (char *)(file + 1),
        .appends = mode[0] == 'a',
        .descriptor = port_open(path, how),
        .next = open_files,
    };
    if (file->descriptor < 0) {
        errno = -file->descriptor;
        free(file);
        return NULL;
    }
    open_files = file;
    return file;
}

int fclose(FILE *file)
{
    int answer = fflush(file);

    if (!file->buffer)
        return answer;

    FILE **link = &open_files;
    while (*link != file)
        link = &(*link)->next;
    *link = file->next;

    int error = port_close(file->descriptor);
    free(file);
    return error < 0 ? fail(NULL, error) : answer;
}

/* A stream of the console does not become a file. */
FILE *freopen(const char *path, const char *mode, FILE *file)
{
    fclose(file);
    return file->buffer ? fopen(path, mode) : (errno = ENOSYS, NULL);
}

int fseek(FILE *file, long distance, int from)
{
    long long place = distance;

    if (!file->buffer)
        return fail(NULL, -ESPIPE);
    if (from == SEEK_CUR)
        place += ftell(file);
    file->back = NOTHING;
    if (empty_buffer(file) != 0)
        return -1;
    if (from == SEEK_END) {
        int size = port_size(file->descriptor);
        if (size < 0)
            return fail(NULL, size);
        place += size;
    }
    if (place < 0 || place > 0x7FFFFFFF)
        return fail(NULL, -EINVAL);
    file->has_ended = false;
    return seek_to(file, place) == 0 ? 0 : -1;
}

long ftell(FILE *file)
{
    if (!file->buffer)
        return fail(NULL, -ESPIPE);
    if (file->is_writing)
        return (file->appends ? port_size(file->descriptor) : (long)file->offset) + file->at;
    return file->offset - (file->end - file->at) - (file->back != NOTHING);
}

void rewind(FILE *file)
{
    fseek(file, 0, SEEK_SET);
    file->has_failed = false;
}

int remove(const char *path)
{
    int error = port_remove(path);

    return error < 0 ? fail(NULL, error) : 0;
}

/* what the disk has not: other names for a file, and files without one */
int rename(const char *from, const char *to)
{
    (void)from, (void)to;
    return fail(NULL, -ENOSYS);
}

FILE *tmpfile(void)
{
    errno = ENOSYS;
    return NULL;
}
