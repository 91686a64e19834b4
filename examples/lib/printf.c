/* Texts with numbers, to the console and into memory. (JOS: lib/printf.c, lib/printfmt.c) */
#include "lib.h"

static const char *const error_texts[MAXERROR + 1] = {
    [E_BAD_ENV] = "bad environment",
    [E_INVAL] = "invalid parameter",
    [E_NO_MEM] = "out of memory",
    [E_NO_FREE_ENV] = "out of environments",
    [E_IPC_NOT_RECV] = "env is not recving",
};

/* Where the bytes of a text go: to a buffer, and when it is full on to the console, or nowhere. */
struct sink {
    char *buf;
    size_t size;    /* of the buffer */
    size_t used;    /* how many bytes stand in it */
    size_t count;   /* how many bytes the text has so far */
    bool console;
};

static void flush(struct sink *sink)
{
    sys_cputs(sink->buf, sink->used);
    sink->used = 0;
}

static void put(struct sink *sink, char c)
{
    sink->count++;
    if (sink->used == sink->size) {
        if (!sink->console)
            return;
        flush(sink);
    }
    sink->buf[sink->used++] = c;
}

static void put_padding(struct sink *sink, char c, size_t width, size_t used)
{
    for (; used < width; used++)
        put(sink, c);
}

/* What stands between the % of a conversion and its letter. */
struct form {
    bool left;    /* `-`: blanks stand behind, and not in front */
    bool zeros;   /* `0`: zeros stand in front of a number, and not blanks */
    bool other;   /* `#`: the other form, as stdio.h says */
    bool precise; /* there is a precision */
    int longs;    /* how many `l` */
    size_t width; /* the least bytes */
    size_t precision; /* the most bytes of a string, the least digits of a number */
};

static const struct form plain;

static void put_bytes(struct sink *sink, const char *bytes, size_t count, const struct form *form)
{
    if (!form->left)
        put_padding(sink, ' ', form->width, count);
    for (size_t k = 0; k < count; k++)
        put(sink, form->other && (bytes[k] < ' ' || bytes[k] > '~') ? '?' : bytes[k]);
    if (form->left)
        put_padding(sink, ' ', form->width, count);
}

static void put_string(struct sink *sink, const char *s, const struct form *form)
{
    if (!s)
        s = "(null)";
    put_bytes(sink, s, form->precise ? strnlen(s, form->precision) : strlen(s), form);
}

/* Divides a number where it stands, and gives the rest. The rest of the upper word goes with the lower one, so that the
   quotient of DIV is a word. */
static unsigned divide(uint64_t *value, unsigned divisor)
{
    uint32_t upper = *value >> 32, lower = *value, rest = upper % divisor;

    __asm__("divl %2" : "+a"(lower), "+d"(rest) : "r"(divisor) : "cc");
    *value = (uint64_t)(upper / divisor) << 32 | lower;
    return rest;
}

/* `before` is what stands before the digits: a sign, or 0x. Zero has a digit, but where the precision is 0. */
static void put_number(struct sink *sink, uint64_t value, unsigned base, const char *before, const struct form *form)
{
    char digits[22]; /* of 64 bits, three a digit */
    size_t n = 0, length = strlen(before), least = form->precise ? form->precision : 1;

    for (; value > 0; n++)
        digits[n] = "0123456789abcdef"[divide(&value, base)];
    if (form->zeros && !form->left && !form->precise && form->width > length)
        least = form->width - length;
    if (form->other && base == 8 && least <= n)
        least = n + 1;

    size_t count = length + MAX(n, least);
    if (!form->left)
        put_padding(sink, ' ', form->width, count);
    while (*before)
        put(sink, *before++);
    put_padding(sink, '0', least, n);
    while (n > 0)
        put(sink, digits[--n]);
    if (form->left)
        put_padding(sink, ' ', form->width, count);
}

static void put_signed(struct sink *sink, int64_t value, const struct form *form)
{
    put_number(sink, value < 0 ? -(uint64_t)value : (uint64_t)value, 10, value < 0 ? "-" : "", form);
}

static void put_unsigned(struct sink *sink, uint64_t value, char letter, const struct form *form)
{
    unsigned base = letter == 'u' ? 10 : letter == 'o' ? 8 : 16;

    put_number(sink, value, base, form->other && base == 16 && value > 0 ? "0x" : "", form);
}

static void put_error(struct sink *sink, int error, const struct form *form)
{
    unsigned number = error < 0 ? -(unsigned)error : (unsigned)error;

    if (number <= MAXERROR && error_texts[number]) {
        put_string(sink, error_texts[number], form);
    } else {
        put_string(sink, "error ", &plain);
        put_number(sink, number, 10, "", form);
    }
}

/* Digits, which may be none. Gives where they end. */
static const char *read_digits(const char *fmt, size_t *number)
{
    for (*number = 0; *fmt >= '0' && *fmt <= '9'; fmt++)
        *number = *number * 10 + (*fmt - '0');
    return fmt;
}

static const char *read_flags(const char *fmt, struct form *form)
{
    for (;; fmt++) {
        if (*fmt == '-')
            form->left = true;
        else if (*fmt == '0')
            form->zeros = true;
        else if (*fmt == '#')
            form->other = true;
        else
            return fmt;
    }
}

/* A `*` is a number that is handed over: a width below 0 is one to the left, and a precision below 0 is none. */
static const char *read_form(const char *fmt, va_list *ap, struct form *form)
{
    fmt = read_flags(fmt, form);
    if (*fmt == '*') {
        int width = va_arg(*ap, int);
        form->left |= width < 0;
        form->width = width < 0 ? -(unsigned)width : (unsigned)width;
        fmt++;
    } else {
        fmt = read_digits(fmt, &form->width);
    }
    if (fmt[0] == '.' && fmt[1] == '*') {
        int precision = va_arg(*ap, int);
        form->precise = precision >= 0;
        form->precision = precision;
        fmt += 2;
    } else if (fmt[0] == '.') {
        form->precise = true;
        fmt = read_digits(fmt + 1, &form->precision);
    }
    for (; *fmt == 'l'; fmt++)
        form->longs++;
    return fmt;
}

/* Puts what a letter stands for. Answers whether it stands for something. */
static bool convert(struct sink *sink, char letter, va_list *ap, const struct form *form)
{
    bool is_wide = form->longs >= 2;

    switch (letter) {
    case 'd':
    case 'i':
        put_signed(sink, is_wide ? va_arg(*ap, int64_t) : va_arg(*ap, int32_t), form);
        return true;
    case 'u':
    case 'o':
    case 'x':
        put_unsigned(sink, is_wide ? va_arg(*ap, uint64_t) : va_arg(*ap, uint32_t), letter, form);
        return true;
    case 'p':
        put_number(sink, va_arg(*ap, uint32_t), 16, "0x", &(struct form){ .precise = true, .precision = 8 });
        return true;
    case 'c':
        put_bytes(sink, &(char){ va_arg(*ap, int) }, 1, form);
        return true;
    case 's':
        put_string(sink, va_arg(*ap, const char *), form);
        return true;
    case 'e':
        put_error(sink, va_arg(*ap, int), form);
        return true;
    case '%':
        put(sink, '%');
        return true;
    }
    return false;
}

static void format(struct sink *sink, const char *fmt, va_list given)
{
    va_list ap;

    va_copy(ap, given);
    for (; *fmt; fmt++) {
        if (*fmt != '%') {
            put(sink, *fmt);
            continue;
        }

        struct form form = plain;
        const char *letter = read_form(fmt + 1, &ap, &form);
        if (convert(sink, *letter, &ap, &form))
            fmt = letter;
        else /* what is not known is shown as it stands */
            put(sink, '%');
    }
    va_end(ap);
}

int vcprintf(const char *fmt, va_list ap)
{
    char buf[256];
    struct sink sink = { .buf = buf, .size = sizeof buf, .console = true };

    format(&sink, fmt, ap);
    flush(&sink);
    return sink.count;
}

int cprintf(const char *fmt, ...)
{
    va_list ap;

    va_start(ap, fmt);
    int count = vcprintf(fmt, ap);
    va_end(ap);
    return count;
}

int vsnprintf(char *buf, size_t n, const char *fmt, va_list ap)
{
    struct sink sink = { .buf = buf, .size = n > 0 ? n - 1 : 0 };

    format(&sink, fmt, ap);
    if (n > 0)
        buf[sink.used] = 0;
    return sink.count;
}

int snprintf(char *buf, size_t n, const char *fmt, ...)
{
    va_list ap;

    va_start(ap, fmt);
    int count = vsnprintf(buf, n, fmt, ap);
    va_end(ap);
    return count;
}
