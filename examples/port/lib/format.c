/* What printf and its kin make of a text with conversions. */
#include "format.h"

#include <limits.h>
#include <stdbool.h>
#include <stdint.h>
#include <string.h>

enum length { BYTE, SHORT, WORD, LONG_LONG };

/* what stands between the % of a conversion and its letter */
struct form {
    bool left, zeros, plus, blank, other;
    bool precise; /* there is a precision */
    size_t width, precision;
    enum length length;
};

static void put(struct sink *sink, const char *bytes, size_t count)
{
    if (count > 0)
        sink->put(sink, bytes, count);
    sink->count += count;
}

static void put_padding(struct sink *sink, char c, size_t width, size_t used)
{
    char many[16];

    if (used >= width)
        return;
    memset(many, c, sizeof many);
    while (used < width) {
        size_t count = width - used < sizeof many ? width - used : sizeof many;
        put(sink, many, count);
        used += count;
    }
}

static void put_bytes(struct sink *sink, const char *bytes, size_t count, const struct form *form)
{
    if (!form->left)
        put_padding(sink, ' ', form->width, count);
    put(sink, bytes, count);
    if (form->left)
        put_padding(sink, ' ', form->width, count);
}

static void put_string(struct sink *sink, const char *s, const struct form *form)
{
    if (!s)
        s = "(null)";
    put_bytes(sink, s, form->precise ? strnlen(s, form->precision) : strlen(s), form);
}

/* Writes the digits of a number before an address, and gives where they begin; 0 has none. A number that is a word is
   divided as one. */
static char *write_digits(char *end, unsigned long long value, unsigned base, const char *digits)
{
    while (value > UINT_MAX) {
        *--end = digits[value % base];
        value /= base;
    }
    for (unsigned word = value; word > 0; word /= base)
        *--end = digits[word % base];
    return end;
}

static void put_number(struct sink *sink, unsigned long long value, unsigned base, const char *digits,
    const char *before, const struct form *form)
{
    char text[22]; /* of 64 bits, three a digit */
    char *first = write_digits(text + sizeof text, value, base, digits);
    size_t n = text + sizeof text - first, length = strlen(before), least = form->precise ? form->precision : 1;

    if (form->zeros && !form->left && !form->precise && form->width > length)
        least = form->width - length;
    if (form->other && base == 8 && least <= n)
        least = n + 1;

    size_t count = length + (n > least ? n : least);
    if (!form->left)
        put_padding(sink, ' ', form->width, count);
    put(sink, before, length);
    put_padding(sink, '0', least, n);
    put(sink, first, n);
    if (form->left)
        put_padding(sink, ' ', form->width, count);
}

static void put_signed(struct sink *sink, long long value, const struct form *form)
{
    const char *sign = value < 0 ? "-" : form->plus ? "+" : form->blank ? " " : "";

    put_number(sink, value < 0 ? -(unsigned long long)value : (unsigned long long)value, 10, "0123456789", sign, form);
}

static void put_unsigned(struct sink *sink, unsigned long long value, char letter, const struct form *form)
{
    const char *digits = letter == 'X' ? "0123456789ABCDEF" : "0123456789abcdef";
    unsigned base = letter == 'u' ? 10 : letter == 'o' ? 8 : 16;
    const char *before = base == 16 && form->other && value > 0 ? (letter == 'X' ? "0X" : "0x") : "";

    put_number(sink, value, base, digits, before, form);
}

static void put_pointer(struct sink *sink, uintptr_t value, struct form *form)
{
    form->other = true;
    if (value == 0)
        put_string(sink, "(nil)", form);
    else
        put_unsigned(sink, value, 'x', form);
}

static const char *read_digits(const char *at, size_t *number)
{
    for (*number = 0; *at >= '0' && *at <= '9'; at++)
        *number = *number * 10 + (*at - '0');
    return at;
}

static const char *read_flags(const char *at, struct form *form)
{
    for (;; at++) {
        switch (*at) {
        case '-':
            form->left = true;
            break;
        case '0':
            form->zeros = true;
            break;
        case '+':
            form->plus = true;
            break;
        case ' ':
            form->blank = true;
            break;
        case '#':
            form->other = true;
            break;
        default:
            return at;
        }
    }
}

/* z, t and l are a word, and j is two. */
static const char *read_length(const char *at, struct form *form)
{
    form->length = WORD;
    if (at[0] == 'h' && at[1] == 'h') {
        form->length = BYTE;
        return at + 2;
    }
    if (at[0] == 'l' && at[1] == 'l') {
        form->length = LONG_LONG;
        return at + 2;
    }
    if (*at == 'h')
        form->length = SHORT;
    if (*at == 'j')
        form->length = LONG_LONG;
    return *at && strchr("hljztL", *at) ? at + 1 : at;
}

/* A `*` is a number that is handed over: a width below 0 is one to the left, and a precision below 0 is none. */
static const char *read_form(const char *at, va_list *ap, struct form *form)
{
    at = read_flags(at, form);
    if (*at == '*') {
        int width = va_arg(*ap, int);
        form->left |= width < 0;
        form->width = width < 0 ? -(unsigned)width : (unsigned)width;
        at++;
    } else {
        at = read_digits(at, &form->width);
    }
    if (at[0] == '.' && at[1] == '*') {
        int precision = va_arg(*ap, int);
        form->precise = precision >= 0;
        form->precision = precision;
        at += 2;
    } else if (at[0] == '.') {
        form->precise = true;
        at = read_digits(at + 1, &form->precision);
    }
    return read_length(at, form);
}

static long long signed_argument(va_list *ap, enum length length)
{
    if (length == LONG_LONG)
        return va_arg(*ap, long long);

    int value = va_arg(*ap, int);
    return length == BYTE ? (signed char)value : length == SHORT ? (short)value : value;
}

static unsigned long long unsigned_argument(va_list *ap, enum length length)
{
    if (length == LONG_LONG)
        return va_arg(*ap, unsigned long long);

    unsigned value = va_arg(*ap, unsigned);
    return length == BYTE ? (unsigned char)value : length == SHORT ? (unsigned short)value : value;
}

/* Puts what a letter stands for. Answers whether it stands for something. */
static bool convert(struct sink *sink, char letter, va_list *ap, struct form *form)
{
    switch (letter) {
    case 'd':
    case 'i':
        put_signed(sink, signed_argument(ap, form->length), form);
        return true;
    case 'u':
    case 'o':
    case 'x':
    case 'X':
        put_unsigned(sink, unsigned_argument(ap, form->length), letter, form);
        return true;
    case 'p':
        put_pointer(sink, va_arg(*ap, uintptr_t), form);
        return true;
    case 'c': {
        char c = va_arg(*ap, int);
        put_bytes(sink, &c, 1, form);
        return true;
    }
    case 's':
        put_string(sink, va_arg(*ap, const char *), form);
        return true;
    case '%':
        put(sink, "%", 1);
        return true;
    case 'a':
    case 'e':
    case 'f':
    case 'g': /* a float takes two words, and is not shown */
        va_arg(*ap, long long);
        return false;
    }
    return false;
}

void port_format(struct sink *sink, const char *text, va_list given)
{
    va_list ap;

    va_copy(ap, given);
    while (*text) {
        size_t plain = strcspn(text, "%");
        put(sink, text, plain);
        text += plain;
        if (!*text)
            break;

        struct form form = { 0 };
        const char *letter = read_form(text + 1, &ap, &form);
        if (convert(sink, *letter, &ap, &form)) {
            text = letter + 1;
        } else { /* what is not known is shown as it stands */
            put(sink, text, 1);
            text++;
        }
    }
    va_end(ap);
}
