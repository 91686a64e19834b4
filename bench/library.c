/* Compares printf and strings of examples/lib with those of the C library; library.sh compiles it, with the functions of
   examples/lib under names that begin with our_. It prints each difference, and how many there were. */
#include <stdio.h>
#include <stdlib.h>
#include <string.h>

int our_snprintf(char *buf, size_t n, const char *fmt, ...);
int our_cprintf(const char *fmt, ...);
void *our_memset(void *dst, int c, size_t n);
void *our_memcpy(void *dst, const void *src, size_t n);
void *our_memmove(void *dst, const void *src, size_t n);
int our_memcmp(const void *p, const void *q, size_t n);
size_t our_strlen(const char *s);
size_t our_strnlen(const char *s, size_t size);
int our_strcmp(const char *p, const char *q);
int our_strncmp(const char *p, const char *q, size_t n);
char *our_strchr(const char *s, int c);
char *our_strcat(char *dst, const char *src);

enum { ROOM = 300, BYTES = 64, TRIES = 200000 };

static unsigned differences;

static void hold(int same, const char *what)
{
    if (!same) {
        printf("another result: %s\n", what);
        differences++;
    }
}

/* what cprintf hands to the kernel */
static char console[1024];
static size_t printed, calls;

void sys_cputs(const char *s, size_t len)
{
    memcpy(console + printed, s, len);
    printed += len;
    calls++;
}

#define SAME_TEXT(n, ...)                                                                              \
    do {                                                                                               \
        char ours[ROOM], theirs[ROOM];                                                                 \
        memset(ours, 7, ROOM);                                                                         \
        memset(theirs, 7, ROOM);                                                                       \
        int count = our_snprintf(ours, n, __VA_ARGS__);                                                \
        hold(count == snprintf(theirs, n, __VA_ARGS__) && !memcmp(ours, theirs, ROOM), #__VA_ARGS__);  \
    } while (0)

static void compare_long(long long v)
{
    SAME_TEXT(ROOM, "%lld|%llu|%llx|%llo", v, v, v, v);
    SAME_TEXT(ROOM, "%30lld|%-30lld|%030lld|%#llx|%.25lld|%#30llo", v, v, v, v, v, v);
}

static void compare_texts(void)
{
    static const int values[] = { 0, 1, -1, 9, 10, -10, 127, 255, 123456, -123456, 2147483647, -2147483647 - 1 };
    for (size_t k = 0; k < sizeof values / sizeof values[0]; k++) {
        int v = values[k];
        SAME_TEXT(ROOM, "%d|%5d|%12d|%05d|%012d", v, v, v, v, v);
        SAME_TEXT(ROOM, "%u|%x|%08x|%3x|%10u", v, v, v, v, v);
        SAME_TEXT(5, "%d", v);
        SAME_TEXT(1, "%d", v);
        SAME_TEXT(0, "%d", v);
        SAME_TEXT(ROOM, "%o|%12o|%012o|%i|%ld|%lx", v, v, v, v, (long)v, (unsigned long)(unsigned)v);
        SAME_TEXT(ROOM, "%-d|%-12d|%-012d|%-8x|%-3u", v, v, v, v, v);
        SAME_TEXT(ROOM, "%.0d|%.1d|%.5d|%.12d|%8.5d|%-8.5d|%08.5d", v, v, v, v, v, v, v);
        SAME_TEXT(ROOM, "%#x|%#o|%#12x|%#012x|%#-12x|%#.3o|%#.12x|%#.0o", v, v, v, v, v, v, v, v);
        SAME_TEXT(ROOM, "%*d|%-*d|%0*d|%.*d|%*.*d", 7, v, 7, v, 7, v, 7, v, -9, -1, v);
        compare_long(v);
        compare_long((long long)v << 32 ^ v);
        compare_long((long long)v * 1000000007);
    }
    compare_long(0x7FFFFFFFFFFFFFFF);
    compare_long(-0x7FFFFFFFFFFFFFFF - 1);
    SAME_TEXT(ROOM, "%s|%10s|%c|%%", "abc", "abc", 'x');
    SAME_TEXT(4, "%s", "abcdef");
    SAME_TEXT(ROOM, "%-10s|%.2s|%.0s|%10.2s|%-10.2s", "abc", "abc", "abc", "abc", "abc");
    SAME_TEXT(ROOM, "%.9s|%*s|%.*s", "abc", 5, "abc", 1, "abc");
    SAME_TEXT(ROOM, "%5c|%-5c|%c", 'x', 'y', 0);

    char text[ROOM];
    our_snprintf(text, ROOM, "%e, %e, %e, %q, %p, %s, %", -4, 7, -99, 0x1234, NULL);
    hold(!strcmp(text, "out of memory, env is not recving, error 99, %q, 0x00001234, (null), %"), text);
    our_snprintf(text, ROOM, "%#s, %-08.3q, %15e, %-15e, %l", "a\tb\200", -3, -4);
    hold(!strcmp(text, "a?b?, %-08.3q, invalid parameter, out of memory  , %l"), text);
}

/* a text of up to 256 bytes is one call */
static void compare_calls(void)
{
    char text[701];
    for (size_t len = 0; len < sizeof text; len += 4) {
        memset(text, 'a', len);
        text[len] = 0;
        printed = calls = 0;
        int count = our_cprintf("%s", text);
        hold((size_t)count == len && printed == len && !memcmp(console, text, len), "cprintf");
        hold(calls == (len <= 256 ? 1 : (len + 255) / 256), "the calls of cprintf");
    }
}

static int sign(int n)
{
    return (n > 0) - (n < 0);
}

static void compare_blocks(void)
{
    srand(1);
    for (unsigned k = 0; k < TRIES; k++) {
        char ours[BYTES], theirs[BYTES];
        for (size_t i = 0; i < BYTES; i++)
            ours[i] = theirs[i] = rand() % 3;
        ours[BYTES - 1] = theirs[BYTES - 1] = 0;
        size_t from = rand() % 32, to = rand() % 31, n = rand() % 33;
        our_memmove(ours + to, ours + from, n);
        memmove(theirs + to, theirs + from, n);
        our_memset(ours + to, 100 + n, n / 2);
        memset(theirs + to, 100 + n, n / 2);
        if (from + n <= to || to + n <= from) {
            our_memcpy(ours + from, ours + to, n);
            memcpy(theirs + from, theirs + to, n);
        }
        ours[BYTES - 1] = theirs[BYTES - 1] = 0;
        hold(!memcmp(ours, theirs, BYTES), "memmove, memset, memcpy");

        const char *p = ours + from, *q = ours + to;
        hold(sign(our_memcmp(p, q, n)) == sign(memcmp(p, q, n)), "memcmp");
        hold(our_strlen(p) == strlen(p) && our_strnlen(p, n) == strnlen(p, n), "strlen");
        hold(sign(our_strcmp(p, q)) == sign(strcmp(p, q)), "strcmp");
        hold(sign(our_strncmp(p, q, n)) == sign(strncmp(p, q, n)), "strncmp");
        hold(our_strchr(p, n % 4) == strchr(p, n % 4), "strchr");

        char joined[2 * BYTES], other[2 * BYTES];
        our_strcat(strcpy(joined, p), q);
        strcat(strcpy(other, p), q);
        hold(!strcmp(joined, other), "strcat");
    }
}

int main(void)
{
    compare_texts();
    compare_calls();
    compare_blocks();
    printf("%u differences\n", differences);
    return differences > 0;
}
