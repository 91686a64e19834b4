/* The console, and files of the disk. What is printed is kept until a line or a buffer is full, or the program
   ends; stdout and stderr are both the console, and stderr is not kept back. stdin is the console's input. In `exo`
   there are no files, and each fopen fails. */
#ifndef PORT_STDIO_H
#define PORT_STDIO_H

#include <stdarg.h>
#include <stddef.h>

#ifdef __cplusplus
extern "C" {
#endif

typedef struct port_file FILE;

extern FILE *const stdin;
extern FILE *const stdout;
extern FILE *const stderr;

#define stdin stdin
#define stdout stdout
#define stderr stderr

#define EOF (-1)
#define BUFSIZ 4096
#define _IOFBF 0
#define _IOLBF 1
#define _IONBF 2
#define SEEK_SET 0
#define SEEK_CUR 1
#define SEEK_END 2
#define FILENAME_MAX 1024
#define FOPEN_MAX 16
#define L_tmpnam 20

/* Conversions are d i u o x X c s p %, with the flags `-`, `0`, `+`, blank and `#`, a width and a precision, and
   the lengths hh h l ll j z t. Of a float (a e f g) the conversion is printed as it stands, and its argument passed
   over. */
int printf(const char *format, ...) __attribute__((format(printf, 1, 2)));
int fprintf(FILE *file, const char *format, ...) __attribute__((format(printf, 2, 3)));
int sprintf(char *buffer, const char *format, ...) __attribute__((format(printf, 2, 3)));
int snprintf(char *buffer, size_t size, const char *format, ...) __attribute__((format(printf, 3, 4)));
int vprintf(const char *format, va_list ap) __attribute__((format(printf, 1, 0)));
int vfprintf(FILE *file, const char *format, va_list ap) __attribute__((format(printf, 2, 0)));
int vsprintf(char *buffer, const char *format, va_list ap) __attribute__((format(printf, 2, 0)));
int vsnprintf(char *buffer, size_t size, const char *format, va_list ap) __attribute__((format(printf, 3, 0)));

int putchar(int c);
int putc(int c, FILE *file);
int fputc(int c, FILE *file);
int puts(const char *s);
int fputs(const char *s, FILE *file);
size_t fwrite(const void *data, size_t size, size_t count, FILE *file);
int fflush(FILE *file);
void perror(const char *s);

int getchar(void);
int getc(FILE *file);
int fgetc(FILE *file);
int ungetc(int c, FILE *file);
char *fgets(char *buffer, int size, FILE *file);
size_t fread(void *data, size_t size, size_t count, FILE *file);
int feof(FILE *file);
int ferror(FILE *file);
void clearerr(FILE *file);

FILE *fopen(const char *path, const char *mode);
FILE *freopen(const char *path, const char *mode, FILE *file);
int fclose(FILE *file);
int fseek(FILE *file, long distance, int from);
long ftell(FILE *file);
void rewind(FILE *file);
int remove(const char *path);

/* these fail */
int rename(const char *from, const char *to);
FILE *tmpfile(void);

/* how much is kept is not the program's choice: these two change nothing */
int setvbuf(FILE *file, char *buffer, int mode, size_t size);
void setbuf(FILE *file, char *buffer);

#ifdef __cplusplus
}
#endif

#endif
