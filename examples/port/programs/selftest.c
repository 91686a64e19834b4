/* Prints what each part of the library does. The text is that of the same program on any machine with a C library. */
#include <ctype.h>
#include <errno.h>
#include <inttypes.h>
#include <limits.h>
#include <setjmp.h>
#include <stddef.h>
#include <stdio.h>
#include <stdlib.h>
#include <string.h>
#include <strings.h>

/* ---- numbers that are not the same each time one looks, but in every run */
static uint32_t seed = 1;

static uint32_t next_number(void)
{
    seed ^= seed << 13;
    seed ^= seed >> 17;
    seed ^= seed << 5;
    return seed;
}

static uint32_t sum_of(const void *bytes, size_t count)
{
    uint32_t sum = 2166136261u;

    for (size_t k = 0; k < count; k++)
        sum = (sum ^ ((const unsigned char *)bytes)[k]) * 16777619u;
    return sum;
}

/* ---- malloc: blocks come, grow and go, and keep what was written to them */
enum { BLOCKS = 64, ROUNDS = 3000 };

static unsigned damaged;

static void look_at(const unsigned char *block, size_t size, unsigned char mark)
{
    for (size_t k = 0; k < size; k++)
        damaged += block[k] != mark;
}

static void try_malloc(void)
{
    static unsigned char *blocks[BLOCKS];
    static size_t sizes[BLOCKS];

    for (unsigned round = 0; round < ROUNDS; round++) {
        unsigned k = next_number() % BLOCKS;
        size_t size = next_number() % (round % 50 == 0 ? 20000 : 300);
        look_at(blocks[k], sizes[k], k);
        if (blocks[k] && next_number() % 3 == 0) {
            free(blocks[k]);
            blocks[k] = NULL;
            size = 0;
        } else if (blocks[k]) {
            blocks[k] = realloc(blocks[k], size + 1);
            look_at(blocks[k], size < sizes[k] ? size : sizes[k], k);
        } else {
            blocks[k] = round % 2 ? malloc(size + 1) : calloc(size + 1, 1);
            if (round % 2 == 0)
                look_at(blocks[k], size + 1, 0);
        }
        damaged += (uintptr_t)blocks[k] % 8 != 0;
        if (blocks[k])
            memset(blocks[k], k, size + 1);
        sizes[k] = blocks[k] ? size + 1 : 0;
    }
    for (unsigned k = 0; k < BLOCKS; k++) {
        look_at(blocks[k], sizes[k], k);
        free(blocks[k]);
    }
    void *aligned = aligned_alloc(4096, 8192);
    printf("malloc: %u bytes are damaged, aligned to %d\n", damaged, (int)((uintptr_t)aligned % 4096));
    free(aligned);
    free(NULL);

    volatile size_t too_many = SIZE_MAX;
    errno = 0;
    printf("too much: %d", malloc(too_many / 2) == NULL);
    printf(" errno %d, calloc %d\n", errno == ENOMEM, calloc(too_many / 2, 3) == NULL);
}

/* ---- sorting */
struct pair {
    int key;
    int place;
};

static int by_key(const void *a, const void *b)
{
    return ((const struct pair *)a)->key - ((const struct pair *)b)->key;
}

static void try_sort(void)
{
    static struct pair pairs[500];
    unsigned wrong = 0;

    for (int k = 0; k < 500; k++)
        pairs[k] = (struct pair){ next_number() % 90, k };
    qsort(pairs, 500, sizeof pairs[0], by_key);
    for (int k = 1; k < 500; k++)
        wrong += pairs[k - 1].key > pairs[k].key;
    printf("qsort: %u are wrong, %08" PRIx32, wrong, sum_of(pairs, sizeof pairs));

    unsigned found = 0;
    for (int key = -1; key <= 90; key++) {
        const struct pair *pair = bsearch(&(struct pair){ key, 0 }, pairs, 500, sizeof pairs[0], by_key);
        found += pair && pair->key == key;
    }
    printf(", bsearch finds %u\n", found);
}

/* ---- numbers in texts */
static void try_number(const char *text, int base)
{
    char *end;

    errno = 0;
    long long number = strtoll(text, &end, base);
    printf("'%s' in base %d: %lld, behind it '%s'%s", text, base, number, end, errno == ERANGE ? ", out of range" : "");
    errno = 0;
    unsigned long long positive = strtoull(text, &end, base);
    printf("; %llu%s\n", positive, errno == ERANGE ? ", out of range" : "");
}

static void try_numbers(void)
{
    static const char *const texts[] = {
        "0", "  -42x", "+7", "0x1F", "0x", "017", "9", "zz", "", "-", "9223372036854775807", "9223372036854775808",
        "-9223372036854775808", "-9223372036854775809", "18446744073709551615", "18446744073709551616",
        "99999999999999999999",
    };
    static const int bases[] = { 0, 10, 16, 36, 2 };

    for (size_t k = 0; k < sizeof texts / sizeof texts[0]; k++)
        try_number(texts[k], bases[k % 5]);
    for (size_t k = 0; k < sizeof texts / sizeof texts[0]; k++)
        try_number(texts[k], 0);
    printf("atoi: %d %d %d\n", atoi("12"), atoi("-2147483648"), atoi("none"));
}

/* ---- printf */
static void try_printf(void)
{
    static const int values[] = { 0, 1, -1, 42, -100000, INT_MAX, INT_MIN };
    char text[40];

    for (size_t k = 0; k < sizeof values / sizeof values[0]; k++) {
        int v = values[k];
        long long w = (long long)v * 1000000007;
        printf("%d|%5d|%-12d|%+d|% d|%05d|%.3d|%8.3d|%i\n", v, v, v, v, v, v, v, v, v);
        printf("%u|%x|%X|%o|%#x|%#X|%#o|%08x|%#10x|%-#10o|\n", v, v, v, v, v, v, v, v, v, v);
        printf("%lld|%llu|%llx|%llo|%25lld|%-25lld|%+.20lld\n", w, w, w, w, w, w, w);
        printf("%hhd|%hhu|%hd|%hu|%hhx|%jd|%zu|%td\n", v, v, v, v, v, (intmax_t)v, (size_t)77, (ptrdiff_t)k);
        printf("%*d|%-*d|%0*d|%.*d|%*.*d\n", 9, v, 9, v, 9, v, 4, v, -9, -1, v);
    }
    printf("%c|%3c|%-3c|%s|%5s|%-5s|%.1s|%5.1s|%.*s|%%|%s\n", 'a', 'b', 'c', "de", "fg", "hi", "jk", "lm", 1, "no", "");
    int count = snprintf(text, 8, "%s and %d", "longer", 12345);
    printf("snprintf: %d '%s'", count, text);
    count = snprintf(NULL, 0, "%d", 12345);
    printf(", %d", count);
    count = sprintf(text, "%03d%s", 7, "x");
    printf(", sprintf: %d '%s'\n", count, text);
    puts("puts");
    fputs("fputs, ", stdout);
    fputc('c', stdout);
    putchar('\n');
    fwrite("fwrite\nmore", 1, 7, stdout);
}

/* ---- strings */
static void try_strings(void)
{
    char text[64] = "one, two,,three", copy[64];
    char *rest;

    strcpy(copy, text);
    for (char *word = strtok_r(copy, ", ", &rest); word; word = strtok_r(NULL, ", ", &rest))
        printf("[%s]", word);
    strcpy(copy, text);
    for (char *word = strtok(copy, "o"); word; word = strtok(NULL, "o"))
        printf("<%s>", word);
    printf("\n%d %d", (int)strspn(text, "eno"), (int)strspn(text, ""));
    printf(" %d %d\n", (int)strcspn(text, ",;"), (int)strcspn(text, "!"));
    printf("%s|%s|%s|%d\n", strstr(text, "two"), strrchr(text, 'e'), strpbrk(text, "w,"), strstr(text, "four") == NULL);
    printf("%d %d\n", (int)((char *)memchr(text, ',', 15) - text), memchr(text, 'z', 15) == NULL);
    memset(copy, '#', sizeof copy);
    strncpy(copy, "abc", 6);
    printf("%d %c", copy[5], copy[6]);
    strncpy(copy, "abcdefgh", 3);
    copy[4] = 0;
    strncat(copy, "xyz", 2);
    char *twice = strdup(copy), *part = strndup(copy, 2);
    printf(" %s %s %s\n", copy, twice, part);
    free(twice);
    free(part);
    memmove(text + 2, text, 10);
    memmove(text, text + 5, 6);
    printf("%s %d %d %d\n", text, strncmp("abc", "abd", 2), strcmp("a", "b") < 0, memcmp("b", "a", 1) > 0);
    printf("%d %d %d\n", strcasecmp("HeLLo", "hEllO"), strncasecmp("abX", "ABy", 2), strcasecmp("a", "B") < 0);
    printf("%s; %s; %s\n", strerror(0), strerror(ERANGE), strerror(12345));
    printf("ffs: %d %d %d\n", ffs(0), ffs(1), ffs(INT_MIN));
}

static void try_ctype(void)
{
    static int (*const kinds[])(int) = {
        isalnum, isalpha, isblank, iscntrl, isdigit, isgraph, islower, isprint, ispunct, isspace, isupper, isxdigit,
    };
    int sums[14] = { 0 };

    for (int c = -1; c < 256; c++) {
        for (int k = 0; k < 12; k++)
            sums[k] = sums[k] * 3 % 100003 + (kinds[k](c) != 0);
        sums[12] = (sums[12] * 3 + tolower(c)) % 100003;
        sums[13] = (sums[13] * 3 + toupper(c)) % 100003;
    }
    printf("ctype:");
    for (int k = 0; k < 14; k++)
        printf(" %d", sums[k]);
    printf("\n");
}

/* ---- what takes functions of libgcc */
static uint32_t divisions(void)
{
    uint32_t sum = 0;

    for (int k = 0; k < 2000; k++) {
        uint64_t a = (uint64_t)next_number() << 32 | next_number(), b = (uint64_t)next_number() << 32 | next_number();
        a >>= next_number() % 64;
        b >>= next_number() % 64;
        if (b == 0)
            b = 1;
        int64_t c = a, d = next_number() % 2 ? b : -b;
        if (d == 0 || (d == -1 && c == INT64_MIN))
            d = 3;
        uint64_t results[] = { a / b, a % b, c / d, c % d };
        sum = (sum ^ sum_of(results, sizeof results)) * 31;
        lldiv_t both = lldiv(c, d);
        sum += both.quot * d + both.rem != c;
    }
    return sum;
}

static uint32_t bits(void)
{
    uint32_t sum = 0;

    for (int k = 0; k < 500; k++) {
        uint32_t a = (next_number() | 1) << k % 32;
        uint64_t b = (uint64_t)(next_number() | 1) << k % 64;
        int results[] = {
            __builtin_ctz(a), __builtin_clz(a), __builtin_popcount(a), __builtin_ctzll(b), __builtin_clzll(b),
            __builtin_popcountll(b), __builtin_parity(a), __builtin_ffs(a), __builtin_ffsll(b), __builtin_clrsb(a),
            __builtin_bswap32(a), __builtin_bswap64(b) >> 7, __builtin_bswap16(a),
        };
        sum = (sum ^ sum_of(results, sizeof results)) * 31;
    }
    return sum;
}

/* ---- setjmp and the end */
static jmp_buf place;

static void go_down(int depth)
{
    if (depth == 0)
        longjmp(place, 5);
    go_down(depth - 1);
    printf("this is not printed\n");
}

static void try_setjmp(void)
{
    volatile int seen = 0;
    int value = setjmp(place);

    if (value == 0) {
        seen++;
        go_down(10);
    }
    if (value == 5) {
        seen++;
        longjmp(place, 0);
    }
    printf("setjmp: %d %d\n", value, seen);
}

static void first(void)
{
    printf("atexit: the first one comes last\n");
}

static void second(void)
{
    printf("atexit: the second one comes first\n");
}

int main(int argc, char **argv)
{
    printf("%d words, %s\n", argc > 0, argv[argc] == NULL ? "and NULL behind them" : "?");
    try_malloc();
    try_sort();
    try_numbers();
    try_printf();
    try_strings();
    try_ctype();
    printf("divisions: %08" PRIx32 ", bits: %08" PRIx32 "\n", divisions(), bits());
    try_setjmp();
    atexit(first);
    atexit(second);
    int c, count = 0, lines = 0;
    while ((c = getchar()) != EOF) {
        count++;
        lines += c == '\n';
    }
    printf("the input: %d bytes, %d lines, then %d\n", count, lines, getchar());
    exit(getenv("THIS_IS_NOT_THERE") ? EXIT_FAILURE : EXIT_SUCCESS);
}
