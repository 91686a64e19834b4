/* Numbers in texts, and arithmetic on them. */
#include <ctype.h>
#include <errno.h>
#include <inttypes.h>
#include <limits.h>
#include <stdbool.h>
#include <stdlib.h>

int errno;

/* What stands in a text: a number without its sign, its sign, and where it ends. */
struct number {
    unsigned long long value;
    bool negative, too_large;
    const char *end;
};

static unsigned digit_of(char c)
{
    if (c >= '0' && c <= '9')
        return c - '0';
    if (c >= 'a' && c <= 'z')
        return c - 'a' + 10;
    if (c >= 'A' && c <= 'Z')
        return c - 'A' + 10;
    return UINT_MAX;
}

static bool has_hexadecimal(const char *s)
{
    return s[0] == '0' && (s[1] == 'x' || s[1] == 'X') && digit_of(s[2]) < 16;
}

/* The number that a text begins with; its end is the text's beginning where there is none. */
static struct number read_number(const char *s, int base)
{
    struct number number = { .end = s };

    while (isspace((unsigned char)*s))
        s++;
    number.negative = *s == '-';
    if (*s == '-' || *s == '+')
        s++;
    if (base == 0)
        base = has_hexadecimal(s) ? 16 : *s == '0' ? 8 : 10;
    if (base < 2 || base > 36) {
        errno = EINVAL;
        return number;
    }
    if (base == 16 && has_hexadecimal(s))
        s += 2;
    for (unsigned digit; (digit = digit_of(*s)) < (unsigned)base; s++) {
        number.too_large |= __builtin_mul_overflow(number.value, (unsigned)base, &number.value);
        number.too_large |= __builtin_add_overflow(number.value, digit, &number.value);
        number.end = s + 1;
    }
    return number;
}

/* The number with its sign, where it is no larger than that: else the largest, and ERANGE. */
static long long signed_value(struct number number, unsigned long long largest)
{
    unsigned long long limit = largest + number.negative;

    if (number.too_large || number.value > limit) {
        errno = ERANGE;
        number.value = limit;
    }
    return number.negative ? -number.value : number.value;
}

/* As C has it, what has a sign is negated, if it is in range without. */
static unsigned long long unsigned_value(struct number number, unsigned long long largest)
{
    if (number.too_large || number.value > largest) {
        errno = ERANGE;
        return largest;
    }
    return number.negative ? -number.value : number.value;
}

static struct number read_up_to(const char *s, char **end, int base)
{
    struct number number = read_number(s, base);

    if (end)
        *end = (char *)number.end;
    return number;
}

long strtol(const char *s, char **end, int base)
{
    return signed_value(read_up_to(s, end, base), LONG_MAX);
}

unsigned long strtoul(const char *s, char **end, int base)
{
    return unsigned_value(read_up_to(s, end, base), ULONG_MAX);
}

long long strtoll(const char *s, char **end, int base)
{
    return signed_value(read_up_to(s, end, base), LLONG_MAX);
}

unsigned long long strtoull(const char *s, char **end, int base)
{
    return unsigned_value(read_up_to(s, end, base), ULLONG_MAX);
}

intmax_t strtoimax(const char *s, char **end, int base)
{
    return strtoll(s, end, base);
}

uintmax_t strtoumax(const char *s, char **end, int base)
{
    return strtoull(s, end, base);
}

int atoi(const char *s)
{
    return strtol(s, NULL, 10);
}

long atol(const char *s)
{
    return strtol(s, NULL, 10);
}

long long atoll(const char *s)
{
    return strtoll(s, NULL, 10);
}

int abs(int value)
{
    return value < 0 ? -value : value;
}

long labs(long value)
{
    return value < 0 ? -value : value;
}

long long llabs(long long value)
{
    return value < 0 ? -value : value;
}

intmax_t imaxabs(intmax_t value)
{
    return value < 0 ? -value : value;
}

div_t div(int value, int divisor)
{
    return (div_t){ value / divisor, value % divisor };
}

ldiv_t ldiv(long value, long divisor)
{
    return (ldiv_t){ value / divisor, value % divisor };
}

lldiv_t lldiv(long long value, long long divisor)
{
    return (lldiv_t){ value / divisor, value % divisor };
}

imaxdiv_t imaxdiv(intmax_t value, intmax_t divisor)
{
    return (imaxdiv_t){ value / divisor, value % divisor };
}

static unsigned long next_random = 1;

int rand(void)
{
    next_random = next_random * 1103515245 + 12345;
    return next_random / 65536 % 32768;
}

void srand(unsigned seed)
{
    next_random = seed;
}
