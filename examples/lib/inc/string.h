/* Strings and blocks of bytes. (JOS: inc/string.h) */
#ifndef INC_STRING_H
#define INC_STRING_H

#include "types.h"

size_t strlen(const char *s);
size_t strnlen(const char *s, size_t size);
char *strcpy(char *dst, const char *src);
char *strcat(char *dst, const char *src);
int strcmp(const char *p, const char *q);
int strncmp(const char *p, const char *q, size_t n);
char *strchr(const char *s, int c);

/* gcc calls these four also where no program names them. */
void *memset(void *dst, int c, size_t n);
void *memcpy(void *dst, const void *src, size_t n);
void *memmove(void *dst, const void *src, size_t n);
int memcmp(const void *p, const void *q, size_t n);

#endif
