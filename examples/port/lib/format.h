/* Texts with numbers, wherever they go. */
#ifndef PORT_FORMAT_H
#define PORT_FORMAT_H

#include <stdarg.h>
#include <stddef.h>

/* where the bytes of a text go, and how many came so far */
struct sink {
    void (*put)(struct sink *sink, const char *bytes, size_t count);
    size_t count;
};

void port_format(struct sink *sink, const char *text, va_list ap);

#endif
