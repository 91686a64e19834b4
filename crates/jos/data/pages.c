/* A program for the bare kernel whose text, data and zeros lie over many pages. It adds up its tables, writes to
   each page that it may write to, reads all of it again and prints what came out. make-pages.sh compiles it. */

enum { SYS_CPUTS = 0, SYS_ENV_DESTROY = 3 };
enum { WORDS = 2100, ZEROS = 10240, PAGE_WORDS = 1024 };

/* three pages that can only be read */
#define FOUR(n) (n) * 2654435761u, (n) * 40503u + 1, (n) ^ 0x5a5a5a5au, (n) << 7
#define SIXTEEN(n) FOUR(n), FOUR(n + 1), FOUR(n + 2), FOUR(n + 3)
#define MANY(n) \
    SIXTEEN(n), SIXTEEN(n + 4), SIXTEEN(n + 8), SIXTEEN(n + 12), SIXTEEN(n + 16), SIXTEEN(n + 20), SIXTEEN(n + 24), \
        SIXTEEN(n + 28)
static const unsigned table[] = {
    MANY(1u), MANY(101u), MANY(201u), MANY(301u), MANY(401u), MANY(501u), MANY(601u), MANY(701u), MANY(801u),
    MANY(901u), MANY(1001u), MANY(1101u), MANY(1201u), MANY(1301u), MANY(1401u), MANY(1501u), MANY(1601u),
};

/* three pages that can be written, and do not begin as zeros */
static unsigned words[WORDS] = { [0] = 3, [1023] = 5, [1024] = 7, [WORDS - 1] = 11 };

/* ten pages of zeros */
static unsigned zeros[ZEROS];

static unsigned call(unsigned number, unsigned first, unsigned second) {
    unsigned answer;
    __asm__ volatile("int $0x30" : "=a"(answer) : "a"(number), "d"(first), "c"(second) : "memory");
    return answer;
}

static unsigned sum(const unsigned *from, unsigned count) {
    unsigned total = 0;
    for (unsigned i = 0; i < count; i++)
        total = total * 31 + from[i];
    return total;
}

static char *hexadecimal(char *at, unsigned value) {
    for (int shift = 28; shift >= 0; shift -= 4)
        *at++ = "0123456789abcdef"[value >> shift & 15];
    *at++ = ' ';
    return at;
}

void _start(void) {
    char line[40];
    char *at = hexadecimal(line, sum(table, sizeof table / sizeof table[0]));
    unsigned before = sum(zeros, ZEROS);
    for (unsigned i = 0; i < WORDS; i += 7)
        words[i] += i;
    for (unsigned i = 0; i < ZEROS; i += PAGE_WORDS)
        zeros[i] = words[i % WORDS] + i;
    at = hexadecimal(at, sum(words, WORDS));
    at = hexadecimal(at, before);
    at = hexadecimal(at, sum(zeros, ZEROS));
    at[-1] = '\n';
    call(SYS_CPUTS, (unsigned)line, at - line);
    call(SYS_ENV_DESTROY, 0, 0);
}
