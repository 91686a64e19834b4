/* Strings and blocks of bytes. Blocks are moved by the processor's string instructions, of which each repetition is a
   step. (JOS: lib/string.c) */
#include "string.h"

size_t strlen(const char *s)
{
    size_t n = 0;

    while (s[n])
        n++;
    return n;
}

size_t strnlen(const char *s, size_t size)
{
    size_t n = 0;

    while (n < size && s[n])
        n++;
    return n;
}

char *strcpy(char *dst, const char *src)
{
    memcpy(dst, src, strlen(src) + 1);
    return dst;
}

char *strcat(char *dst, const char *src)
{
    strcpy(dst + strlen(dst), src);
    return dst;
}

int strcmp(const char *p, const char *q)
{
    while (*p && *p == *q)
        p++, q++;
    return (uint8_t)*p - (uint8_t)*q;
}

int strncmp(const char *p, const char *q, size_t n)
{
    while (n > 0 && *p && *p == *q)
        n--, p++, q++;
    return n == 0 ? 0 : (uint8_t)*p - (uint8_t)*q;
}

char *strchr(const char *s, int c)
{
    for (; *s != (char)c; s++)
        if (!*s)
            return NULL;
    return (char *)s;
}

void *memset(void *dst, int c, size_t n)
{
    void *at = dst;
    size_t words = n / 4;

    n %= 4;
    c = (c & 0xFF) * 0x01010101;
    __asm__ volatile("rep stosl" : "+D"(at), "+c"(words) : "a"(c) : "memory");
    __asm__ volatile("rep stosb" : "+D"(at), "+c"(n) : "a"(c) : "memory");
    return dst;
}

void *memcpy(void *dst, const void *src, size_t n)
{
    void *to = dst;
    size_t words = n / 4;

    n %= 4;
    __asm__ volatile("rep movsl" : "+D"(to), "+S"(src), "+c"(words) : : "memory");
    __asm__ volatile("rep movsb" : "+D"(to), "+S"(src), "+c"(n) : : "memory");
    return dst;
}

/* The blocks may share bytes. Where the second begins within the first, the last byte goes first. */
void *memmove(void *dst, const void *src, size_t n)
{
    if ((size_t)((char *)dst - (const char *)src) >= n)
        return memcpy(dst, src, n);

    void *to = (char *)dst + n - 1;
    const void *from = (const char *)src + n - 1;

    __asm__ volatile("std; rep movsb; cld" : "+D"(to), "+S"(from), "+c"(n) : : "memory", "cc");
    return dst;
}

int memcmp(const void *p, const void *q, size_t n)
{
    const uint8_t *a = p, *b = q;

    for (; n > 0; n--, a++, b++)
        if (*a != *b)
            return *a - *b;
    return 0;
}
