/* Strings, as programs of Unix have them. */
#ifndef PORT_STRINGS_H
#define PORT_STRINGS_H

#include <stddef.h>

#ifdef __cplusplus
extern "C" {
#endif

int strcasecmp(const char *p, const char *q);
int strncasecmp(const char *p, const char *q, size_t n);
int ffs(int value);

#ifdef __cplusplus
}
#endif

#endif
