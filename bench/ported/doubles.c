/* What stands for the coprocessor: each operation on random doubles, many of them close to one another, tiny, huge or no
   number, and a sum of the bits of what comes of it. */
#include <math.h>
#include <stdio.h>
#include <string.h>

#define ROUNDS 3000

static unsigned state = 6828;

static unsigned word(void)
{
    unsigned high;

    state = state * 1103515245u + 12345u;
    high = state & 0xFFFF0000u;
    state = state * 1103515245u + 12345u;
    return high | state >> 16;
}

static double of_bits(unsigned high, unsigned low)
{
    unsigned long long bits = (unsigned long long)high << 32 | low;
    double value;

    memcpy(&value, &bits, sizeof value);
    return value;
}

static double any(void)
{
    unsigned high = word(), low = word();

    switch (word() >> 29) {
    case 0:
        return of_bits(high & 0x800FFFFF, low); /* denormal */
    case 1:
        return of_bits(high | 0x7FF00000, high & 1 ? low : 0); /* none, or infinite */
    case 2:
        return (int)low;
    case 3:
        return of_bits((high & 0x80000003) | 0x3FF00000, low & 0xF0000003); /* close to one */
    case 4:
        return of_bits(high & 0x8000000F, 0); /* zero, or next to it */
    default:
        return of_bits(high, low);
    }
}

/* adds the bits of a result to a sum; of what is no number only that it is none */
static void add(unsigned *sum, double value)
{
    unsigned long long bits = 1;

    if (value == value)
        memcpy(&bits, &value, sizeof bits);
    *sum = (*sum * 31 + (unsigned)(bits >> 32)) * 31 + (unsigned)bits;
}

int main(void)
{
    unsigned sums = 0, differences = 0, products = 0, quotients = 0, orders = 0, whole = 0, short_ones = 0, roots = 0;

    for (int k = 0; k < ROUNDS; k++) {
        double a = any(), b = any();
        float narrow = (float)a;
        double near = fmod(b, 1e9);

        add(&sums, a + b);
        add(&differences, a - b);
        add(&products, a * b);
        add(&quotients, a / b);
        orders = orders * 31 + (a < b) + 2 * (a <= b) + 4 * (a > b) + 8 * (a >= b) + 16 * (a == b) + 32 * (a != b);
        add(&short_ones, narrow);
        add(&short_ones, narrow * (float)b);
        add(&roots, sqrt(a));
        add(&roots, floor(b));
        if (near == near)
            whole = whole * 31 + (int)near + (unsigned)(long long)(near * 1e9) + (unsigned)fabs(near);
        add(&sums, (double)(unsigned)k * word() + (double)(long long)((unsigned long long)word() << 32 | word()));
    }
    printf("sums %08x, differences %08x, products %08x, quotients %08x\n", sums, differences, products, quotients);
    printf("orders %08x, whole %08x, floats %08x, roots %08x\n", orders, whole, short_ones, roots);
    return 0;
}
