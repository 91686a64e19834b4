/* Numbers of 16 bits in all ways that C has: gcc makes instructions for them that the machine has not, and `widen` puts
   others in their place. Each function gives a sum of what it came to, and the sums are those of any machine. */
#include <stdint.h>
#include <stdio.h>
#include <string.h>

static uint32_t seed = 7;

static uint32_t next_number(void)
{
    static const uint16_t borders[] = { 0, 1, 0x7FFF, 0x8000, 0xFFFF, 0x00FF, 0x0100, 0x8001 };

    seed ^= seed << 13;
    seed ^= seed >> 17;
    seed ^= seed << 5;
    return seed % 3 == 0 ? borders[seed / 3 % 8] : seed;
}

/* what no compiler looks through */
static volatile uint16_t word_in_memory;
static volatile int16_t signed_in_memory;

#define APART __attribute__((noinline))

APART static uint16_t sums(uint16_t a, uint16_t b)
{
    uint16_t c = a + b, d = a - b;

    c += d & 0x0FF0;
    d ^= c | 1;
    return ~c + -d;
}

APART static int16_t products(int16_t a, int16_t b)
{
    int16_t c = a * b, d = b * 77;

    return c ^ d;
}

APART static uint16_t quotients(uint16_t a, uint16_t b)
{
    uint16_t q = b ? a / b : 5, r = b ? a % b : 6, by_seven = a / 7;

    return q * 3 + r + by_seven % 10;
}

APART static int16_t signed_quotients(int16_t a, int16_t b)
{
    int16_t q = b ? a / b : 5, r = b ? a % b : 6;

    return q * 3 + r + a / 9 + a % 16;
}

APART static uint16_t shifts(uint16_t a, unsigned n)
{
    uint16_t left = a << n, right = a >> n;
    int16_t down = (int16_t)a >> n;

    left <<= 3;
    right >>= 1;
    return left + right * 5 + down * 7;
}

APART static uint16_t rotations(uint16_t a)
{
    uint16_t swapped = a << 8 | a >> 8, turned = a << 3 | a >> 13;

    return swapped * 3 + turned;
}

APART static int comparisons(uint16_t a, uint16_t b, int16_t c, int16_t d)
{
    int n = 0;

    n = n * 2 + (a < b);
    n = n * 2 + (a <= b);
    n = n * 2 + (a == b);
    n = n * 2 + (a != 0);
    n = n * 2 + (c < d);
    n = n * 2 + (c >= d);
    n = n * 2 + (c > 0);
    n = n * 2 + (c == (int16_t)a);
    n = n * 2 + ((a & 0x8000) != 0);
    n = n * 2 + ((a & b) == 0);
    if (a == 0x1234)
        n += 5;
    switch (a) {
    case 0:
        return n + 1000;
    case 0x7FFF:
        return n + 2000;
    case 0x8000:
        return n + 3000;
    }
    return n;
}

APART static int counts(void)
{
    int n = 0;

    word_in_memory++;
    n += word_in_memory == 0;
    word_in_memory--;
    n = n * 2 + (word_in_memory == 0xFFFF);
    word_in_memory += 300;
    word_in_memory -= 17;
    word_in_memory |= 0x11;
    word_in_memory &= 0xFFF7;
    word_in_memory ^= 0x8080;
    if (--word_in_memory)
        n += 8;
    signed_in_memory -= 5;
    if (signed_in_memory < 0)
        n += 16;
    signed_in_memory = -signed_in_memory;
    if ((signed_in_memory >>= 1) > 100)
        n += 32;
    return n;
}

struct fields {
    uint16_t whole;
    uint16_t low : 5, middle : 7, high : 4;
    int16_t negative : 9;
    uint32_t across : 17, rest : 15;
    int16_t last[3];
};

APART static void change(struct fields *f, uint16_t a)
{
    f->whole += a;
    f->low = a;
    f->middle += f->low;
    f->high ^= a >> 4;
    f->negative = a * 3;
    f->across += a * f->middle;
    f->rest -= f->high;
    f->last[a % 3] = f->negative;
    f->last[(a + 1) % 3] -= f->low;
}

APART static int look(const struct fields *f)
{
    return f->whole + f->low * 3 + f->middle * 5 + f->high * 7 + f->negative * 9 + (int)f->across + (int)f->rest * 11
        + f->last[0] + f->last[1] * 2 + f->last[2] * 3;
}

struct pair {
    int16_t a, b;
};

APART static struct pair exchanged(struct pair p)
{
    return (struct pair){ p.b, p.a };
}

/* arrays with addresses of all kinds */
enum { LENGTH = 50 };

static int16_t samples[LENGTH];
static uint16_t table[LENGTH][4];

APART static int filter(int16_t *to, const int16_t *from, int n)
{
    int largest = -32768;

    for (int k = 1; k + 1 < n; k++) {
        to[k] = (from[k - 1] + 2 * from[k] + from[k + 1]) >> 2;
        if (to[k] > largest)
            largest = to[k];
    }
    to[0] = from[0];
    to[n - 1] = from[n - 1];
    return largest;
}

APART static void fill(uint16_t value)
{
    for (int k = 0; k < LENGTH; k++) {
        table[k][k % 4] = value;
        table[k][(k + 1) % 4] += value;
        table[LENGTH - 1 - k][2] -= table[k][1];
        value = value * 31 + k;
    }
}

APART static int sort(int16_t *a, int n)
{
    int moves = 0;

    for (int k = 1; k < n; k++) {
        int16_t value = a[k];
        int j = k;
        for (; j > 0 && a[j - 1] > value; j--, moves++)
            a[j] = a[j - 1];
        a[j] = value;
    }
    return moves;
}

APART static uint16_t check_sum(const uint8_t *bytes, int n)
{
    uint16_t crc = 0xFFFF;

    for (int k = 0; k < n; k++) {
        crc ^= (uint16_t)bytes[k] << 8;
        for (int bit = 0; bit < 8; bit++)
            crc = crc & 0x8000 ? crc << 1 ^ 0x1021 : crc << 1;
    }
    return crc;
}

APART static unsigned bits_of(unsigned value, unsigned n)
{
    unsigned set = value | 1u << n % 32, cleared = value & ~(1u << n % 32), turned = value ^ 1u << n % 32;

    return (value >> n % 32 & 1 ? 3 : 5) + set * 7 + cleared * 11 + turned * 13;
}

APART static int through_pointers(volatile uint16_t *p, volatile int16_t *q, int8_t byte)
{
    *p = byte;
    *q = (uint8_t)byte;
    *p += *q;
    *q = *p << 2;
    return *p + *q + (uint16_t)(*p * *q);
}

int main(void)
{
    static struct fields fields;
    struct pair pair = { 1, -2 };
    uint32_t sums_of[14] = { 0 };

    for (int k = 0; k < 3000; k++) {
        uint16_t a = next_number(), b = next_number();
        int16_t c = next_number(), d = next_number();
        uint16_t word;
        int16_t number;
        uint32_t results[14] = {
            sums(a, b), products(c, d), quotients(a, b), c == -32768 && d == -1 ? 0 : signed_quotients(c, d),
            shifts(a, b % 16), rotations(a), comparisons(a, b, c, d), counts(), 0, 0, 0, 0, bits_of(next_number(), b),
            through_pointers(&word, &number, c),
        };
        change(&fields, a);
        results[8] = look(&fields);
        pair = exchanged((struct pair){ pair.a + c, pair.b - d });
        results[9] = pair.a * 3 + pair.b;
        samples[a % LENGTH] = c;
        if (k % 100 == 0) {
            int16_t filtered[LENGTH];
            fill(a);
            results[10] = filter(filtered, samples, LENGTH) + sort(filtered, LENGTH) + table[b % LENGTH][a % 4];
            results[11] = check_sum((const uint8_t *)filtered, sizeof filtered);
        }
        for (int j = 0; j < 14; j++)
            sums_of[j] = (sums_of[j] ^ results[j]) * 16777619u + (sums_of[j] >> 15);
    }
    for (int j = 0; j < 14; j++)
        printf("%2d %08x\n", j, sums_of[j]);
    return 0;
}
