/* Streams. What is printed on the console is kept until a line or a buffer is full. */
#include <stdio.h>

#include <errno.h>
#include <string.h>

#include "format.h"
#include "stream.h"
#include "system.h"

static struct port_file input = { .back = NOTHING, .can_read = true };
static struct port_file output = { .back = NOTHING, .can_write = true };
static struct port_file errors = { .back = NOTHING, .can_write = true };

FILE *const stdin = &input;
FILE *const stdout = &output;
FILE *const stderr = &errors;

/* the bytes of both streams of output, in the order in which they came */
static char kept[BUFSIZ];
static size_t kept_count;

static void print_kept(void)
{
    if (kept_count > 0)
        port_write(kept, kept_count);
    kept_count = 0;
}

static void keep(const char *bytes, size_t count)
{
    while (count > 0) {
        size_t part = sizeof kept - kept_count;
        if (part > count)
            part = count;
        memcpy(kept + kept_count, bytes, part);
        kept_count += part;
        bytes += part;
        count -= part;
        if (kept_count == sizeof kept)
            print_kept();
    }
}

int fflush(FILE *file)
{
    if (!file || !file->buffer)
        print_kept();
    return file && !file->buffer ? 0 : port_flush_files(file);
}

/* Notes that a stream is not open for this. */
static bool refuse(FILE *file)
{
    file->has_failed = true;
    errno = EBADF;
    return false;
}

/* Answers how many bytes were taken. Of the console whole lines are printed. */
static size_t write_bytes(FILE *file, const char *bytes, size_t count)
{
    if (!file->can_write)
        return refuse(file);
    if (file->buffer)
        return port_write_file(file, bytes, count);
    keep(bytes, count);
    if (file == stderr || memchr(bytes, '\n', count))
        print_kept();
    return count;
}

int fputc(int c, FILE *file)
{
    char byte = c;

    return write_bytes(file, &byte, 1) == 1 ? (unsigned char)byte : EOF;
}

int putc(int c, FILE *file)
{
    return fputc(c, file);
}

int putchar(int c)
{
    return fputc(c, stdout);
}

int fputs(const char *s, FILE *file)
{
    size_t length = strlen(s);

    return write_bytes(file, s, length) == length && file->can_write ? 0 : EOF;
}

int puts(const char *s)
{
    keep(s, strlen(s));
    return putchar('\n');
}

size_t fwrite(const void *data, size_t size, size_t count, FILE *file)
{
    return size > 0 ? write_bytes(file, data, size * count) / size : 0;
}

void perror(const char *s)
{
    int error = errno;

    if (s && *s)
        fprintf(stderr, "%s: ", s);
    fprintf(stderr, "%s\n", strerror(error));
}

/* Answers how many bytes there were. */
static size_t read_bytes(FILE *file, char *bytes, size_t count)
{
    size_t done = 0;

    if (!file->can_read)
        return refuse(file);
    if (count > 0 && file->back != NOTHING) {
        bytes[done++] = file->back;
        file->back = NOTHING;
    }
    if (file->buffer)
        return done + port_read_file(file, bytes + done, count - done);
    for (int c; done < count; done++) {
        if ((c = port_read()) < 0) {
            file->has_ended = true;
            break;
        }
        bytes[done] = c;
    }
    return done;
}

int fgetc(FILE *file)
{
    char byte;

    return read_bytes(file, &byte, 1) == 1 ? (unsigned char)byte : EOF;
}

int getc(FILE *file)
{
    return fgetc(file);
}

int getchar(void)
{
    return fgetc(stdin);
}

int ungetc(int c, FILE *file)
{
    if (c == EOF || file->back != NOTHING)
        return EOF;
    file->back = (unsigned char)c;
    file->has_ended = false;
    return file->back;
}

char *fgets(char *buffer, int size, FILE *file)
{
    int n = 0, c = 0;

    while (n + 1 < size && c != '\n' && (c = fgetc(file)) != EOF)
        buffer[n++] = c;
    if (size <= 0 || (n == 0 && c == EOF))
        return NULL;
    buffer[n] = 0;
    return buffer;
}

size_t fread(void *data, size_t size, size_t count, FILE *file)
{
    return size > 0 ? read_bytes(file, data, size * count) / size : 0;
}

int feof(FILE *file)
{
    return file->has_ended;
}

int ferror(FILE *file)
{
    return file->has_failed;
}

void clearerr(FILE *file)
{
    file->has_ended = file->has_failed = false;
}

int setvbuf(FILE *file, char *buffer, int mode, size_t size)
{
    (void)file, (void)buffer, (void)mode, (void)size;
    return 0;
}

void setbuf(FILE *file, char *buffer)
{
    (void)file, (void)buffer;
}

/* ---- printf and its kin */

struct stream_sink {
    struct sink sink;
    FILE *file;
    bool has_line;
};

static void put_to_stream(struct sink *sink, const char *bytes, size_t count)
{
    struct stream_sink *stream = (struct stream_sink *)sink;

    if (stream->file->buffer) {
        port_write_file(stream->file, bytes, count);
    } else {
        keep(bytes, count);
        stream->has_line |= memchr(bytes, '\n', count) != NULL;
    }
}

/* A text is one whole: it goes to the console where there is a line's end in it. */
int vfprintf(FILE *file, const char *text, va_list ap)
{
    struct stream_sink stream = { .sink = { .put = put_to_stream }, .file = file };

    if (!file->can_write) {
        refuse(file);
        return -1;
    }
    port_format(&stream.sink, text, ap);
    if (file == stderr || stream.has_line)
        print_kept();
    return file->has_failed ? -1 : (int)stream.sink.count;
}

int fprintf(FILE *file, const char *text, ...)
{
    va_list ap;

    va_start(ap, text);
    int count = vfprintf(file, text, ap);
    va_end(ap);
    return count;
}

int vprintf(const char *text, va_list ap)
{
    return vfprintf(stdout, text, ap);
}

int printf(const char *text, ...)
{
    va_list ap;

    va_start(ap, text);
    int count = vfprintf(stdout, text, ap);
    va_end(ap);
    return count;
}

struct memory_sink {
    struct sink sink;
    char *buffer;
    size_t room; /* for how many bytes more, without the 0 that ends them */
};

static void put_to_memory(struct sink *sink, const char *bytes, size_t count)
{
    struct memory_sink *memory = (struct memory_sink *)sink;

    if (count > memory->room)
        count = memory->room;
    memcpy(memory->buffer, bytes, count);
    memory->buffer += count;
    memory->room -= count;
}

int vsnprintf(char *buffer, size_t size, const char *text, va_list ap)
{
    struct memory_sink memory = { { .put = put_to_memory }, buffer, size > 0 ? size - 1 : 0 };

    port_format(&memory.sink, text, ap);
    if (size > 0)
        *memory.buffer = 0;
    return memory.sink.count;
}

int snprintf(char *buffer, size_t size, const char *text, ...)
{
    va_list ap;

    va_start(ap, text);
    int count = vsnprintf(buffer, size, text, ap);
    va_end(ap);
    return count;
}

/* The buffer is taken to be as long as it has to be. */
int vsprintf(char *buffer, const char *text, va_list ap)
{
    return vsnprintf(buffer, (size_t)-1 / 2, text, ap);
}

int sprintf(char *buffer, const char *text, ...)
{
    va_list ap;

    va_start(ap, text);
    int count = vsprintf(buffer, text, ap);
    va_end(ap);
    return count;
}
