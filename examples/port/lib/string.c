/* The strings that ../lib/string.c has not. */
#include <string.h>

#include <errno.h>
#include <stdbool.h>
#include <stdint.h>
#include <stdio.h>
#include <stdlib.h>
#include <strings.h>

void *memchr(const void *p, int c, size_t n)
{
    const unsigned char *at = p;

    for (; n > 0; n--, at++)
        if (*at == (unsigned char)c)
            return (void *)at;
    return NULL;
}

char *stpcpy(char *dst, const char *src)
{
    size_t n = strlen(src);

    memcpy(dst, src, n + 1);
    return dst + n;
}

char *strncpy(char *dst, const char *src, size_t n)
{
    size_t length = strnlen(src, n);

    memcpy(dst, src, length);
    memset(dst + length, 0, n - length);
    return dst;
}

char *strncat(char *dst, const char *src, size_t n)
{
    size_t length = strnlen(src, n);
    char *end = dst + strlen(dst);

    memcpy(end, src, length);
    end[length] = 0;
    return dst;
}

char *strndup(const char *s, size_t n)
{
    size_t length = strnlen(s, n);
    char *copy = malloc(length + 1);

    if (copy) {
        memcpy(copy, s, length);
        copy[length] = 0;
    }
    return copy;
}

char *strdup(const char *s)
{
    return strndup(s, strlen(s));
}

int strcoll(const char *p, const char *q)
{
    return strcmp(p, q);
}

size_t strxfrm(char *dst, const char *src, size_t n)
{
    size_t length = strlen(src);

    if (n > 0)
        memcpy(dst, src, length < n ? length + 1 : n);
    return length;
}

char *strrchr(const char *s, int c)
{
    const char *last = NULL;

    do
        if (*s == (char)c)
            last = s;
    while (*s++);
    return (char *)last;
}

char *strstr(const char *s, const char *part)
{
    size_t n = strlen(part);

    if (n == 0)
        return (char *)s;
    for (; (s = strchr(s, part[0])); s++)
        if (strncmp(s, part, n) == 0)
            return (char *)s;
    return NULL;
}

/* The bytes of a set, a bit for each. The 0 that ends a string is put in where it is to end a search. */
struct set {
    uint32_t words[8];
};

static void add(struct set *set, unsigned char c)
{
    set->words[c / 32] |= 1u << c % 32;
}

static bool has(const struct set *set, unsigned char c)
{
    return set->words[c / 32] >> c % 32 & 1;
}

static struct set set_of(const char *s)
{
    struct set set = { { 0 } };

    while (*s)
        add(&set, *s++);
    return set;
}

size_t strspn(const char *s, const char *bytes)
{
    struct set set = set_of(bytes);
    size_t n = 0;

    while (has(&set, s[n]))
        n++;
    return n;
}

size_t strcspn(const char *s, const char *bytes)
{
    size_t n = 0;

    /* a set of one byte is the usual case */
    if (bytes[0] && !bytes[1]) {
        while (s[n] && s[n] != bytes[0])
            n++;
        return n;
    }

    struct set set = set_of(bytes);
    add(&set, 0);
    while (!has(&set, s[n]))
        n++;
    return n;
}

char *strpbrk(const char *s, const char *bytes)
{
    s += strcspn(s, bytes);
    return *s ? (char *)s : NULL;
}

char *strtok_r(char *s, const char *set, char **rest)
{
    if (!s)
        s = *rest;
    s += strspn(s, set);
    if (!*s) {
        *rest = s;
        return NULL;
    }

    char *end = s + strcspn(s, set);
    *rest = *end ? end + 1 : end;
    *end = 0;
    return s;
}

char *strtok(char *s, const char *set)
{
    static char *rest;

    return strtok_r(s, set, &rest);
}

static int lower(int c)
{
    return c >= 'A' && c <= 'Z' ? c + 'a' - 'A' : c;
}

int strncasecmp(const char *p, const char *q, size_t n)
{
    for (; n > 0; n--, p++, q++) {
        int a = lower((unsigned char)*p), b = lower((unsigned char)*q);
        if (a != b || a == 0)
            return a - b;
    }
    return 0;
}

int strcasecmp(const char *p, const char *q)
{
    return strncasecmp(p, q, SIZE_MAX);
}

int ffs(int value)
{
    return value == 0 ? 0 : __builtin_ctz(value) + 1;
}

/* as Linux has the texts of those that happen here; of another it says its number */
char *strerror(int error)
{
    static const struct {
        int error;
        const char *text;
    } texts[] = {
        { 0, "Success" },
        { ENOENT, "No such file or directory" },
        { EIO, "Input/output error" },
        { EBADF, "Bad file descriptor" },
        { ENOMEM, "Cannot allocate memory" },
        { EACCES, "Permission denied" },
        { EEXIST, "File exists" },
        { EINVAL, "Invalid argument" },
        { ENOSPC, "No space left on device" },
        { EDOM, "Numerical argument out of domain" },
        { ERANGE, "Numerical result out of range" },
        { ENOSYS, "Function not implemented" },
    };
    static char unknown[32];

    for (size_t k = 0; k < sizeof texts / sizeof texts[0]; k++)
        if (texts[k].error == error)
            return (char *)texts[k].text;
    snprintf(unknown, sizeof unknown, "Unknown error %d", error);
    return unknown;
}
