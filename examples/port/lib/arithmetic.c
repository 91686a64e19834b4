/* What gcc calls where the processor has no instruction: the functions of its own library libgcc on whole numbers. */

typedef unsigned long long number;

/* The quotient of two words by one, which is to be a word: so the upper word is less than the divisor. */
static unsigned divide_word(unsigned upper, unsigned lower, unsigned divisor, unsigned *rest)
{
    unsigned quotient;

    __asm__("divl %4" : "=a"(quotient), "=d"(*rest) : "0"(lower), "1"(upper), "rm"(divisor) : "cc");
    return quotient;
}

static const unsigned char leading_zeros[16] = { 4, 3, 2, 2, 1, 1, 1, 1 };

int __clzsi2(unsigned value)
{
    int n = 0;

    if (value < 1u << 16)
        n += 16, value <<= 16;
    if (value < 1u << 24)
        n += 8, value <<= 8;
    if (value < 1u << 28)
        n += 4, value <<= 4;
    return n + leading_zeros[value >> 28];
}

/* A product with this has the five bits in front that stand nowhere else in it, for each single bit. */
#define SEQUENCE 0x077CB531u

static const unsigned char single_bits[32] = {
    0, 1, 28, 2, 29, 14, 24, 3, 30, 22, 20, 15, 25, 17, 4, 8, 31, 27, 13, 23, 21, 19, 16, 7, 26, 12, 18, 6, 11, 5,
    10, 9,
};

int __ctzsi2(unsigned value)
{
    return single_bits[(value & -value) * SEQUENCE >> 27];
}

int __clzdi2(number value)
{
    return value >> 32 ? __clzsi2(value >> 32) : 32 + __clzsi2(value);
}

int __ctzdi2(number value)
{
    return (unsigned)value ? __ctzsi2(value) : 32 + __ctzsi2(value >> 32);
}

int __ffssi2(unsigned value)
{
    return value ? __ctzsi2(value) + 1 : 0;
}

int __ffsdi2(number value)
{
    return value ? __ctzdi2(value) + 1 : 0;
}

int __popcountsi2(unsigned value)
{
    value -= value >> 1 & 0x55555555;
    value = (value & 0x33333333) + (value >> 2 & 0x33333333);
    value = (value + (value >> 4)) & 0x0F0F0F0F;
    return value * 0x01010101 >> 24;
}

int __popcountdi2(number value)
{
    return __popcountsi2(value) + __popcountsi2(value >> 32);
}

int __paritysi2(unsigned value)
{
    return __popcountsi2(value) & 1;
}

int __paritydi2(number value)
{
    return __popcountdi2(value) & 1;
}

int __clrsbsi2(int value)
{
    unsigned other = value < 0 ? ~value : value;

    return other ? __clzsi2(other) - 1 : 31;
}

unsigned __bswapsi2(unsigned value)
{
    return value << 24 | (value & 0xFF00) << 8 | (value >> 8 & 0xFF00) | value >> 24;
}

number __bswapdi2(number value)
{
    return (number)__bswapsi2(value) << 32 | __bswapsi2(value >> 32);
}

/* By a word: the upper word first, and its rest with the lower one. */
static number divide_by_word(number value, unsigned divisor, number *rest)
{
    unsigned upper = value >> 32, quotient, left;

    quotient = divide_word(upper % divisor, value, divisor, &left);
    *rest = left;
    return (number)(upper / divisor) << 32 | quotient;
}

/* By two words, of which the upper is not 0: so the quotient is a word. It is taken from half the number and the
   divisor's 32 leading bits, and is then right or too large by one; so it is made less by one, and looked at.
   (Hacker's Delight, second edition, 9-5) */
static number divide_by_number(number value, number divisor, number *rest)
{
    int shift = __clzsi2(divisor >> 32);
    unsigned leading = divisor << shift >> 32, left;
    number half = value >> 1;
    unsigned estimate = divide_word(half >> 32, half, leading, &left);
    number quotient = (number)estimate << shift >> 31;

    if (quotient > 0)
        quotient--;
    value -= quotient * divisor;
    if (value >= divisor) {
        quotient++;
        value -= divisor;
    }
    *rest = value;
    return quotient;
}

/* A division by 0 is one for the processor, too. */
static number divide(number value, number divisor, number *rest)
{
    return divisor >> 32 ? divide_by_number(value, divisor, rest) : divide_by_word(value, divisor, rest);
}

static number magnitude(long long value)
{
    return value < 0 ? -(number)value : (number)value;
}

number __udivmoddi4(number value, number divisor, number *rest)
{
    number left, quotient = divide(value, divisor, &left);

    if (rest)
        *rest = left;
    return quotient;
}

number __udivdi3(number value, number divisor)
{
    number rest;

    return divide(value, divisor, &rest);
}

number __umoddi3(number value, number divisor)
{
    number rest;

    divide(value, divisor, &rest);
    return rest;
}

/* Rounded towards 0: the rest has the sign of the number. */
long long __divmoddi4(long long value, long long divisor, long long *rest)
{
    number left, quotient = divide(magnitude(value), magnitude(divisor), &left);

    *rest = value < 0 ? -left : left;
    return (value < 0) != (divisor < 0) ? -quotient : quotient;
}

long long __divdi3(long long value, long long divisor)
{
    long long rest;

    return __divmoddi4(value, divisor, &rest);
}

long long __moddi3(long long value, long long divisor)
{
    long long rest;

    __divmoddi4(value, divisor, &rest);
    return rest;
}
