/* zlib: a text is compressed at three levels and by two strategies, uncompressed again and compared. */
#include <stdio.h>
#include <string.h>
#include "text.h"
#include "zlib.h"

#define SIZE 20000

static unsigned char text[SIZE], packed[SIZE + 1000], again[SIZE];

/* the sum of what comes of the text, and whether the text comes of that again */
static void compressed(int level, int strategy)
{
    z_stream stream = { 0 };
    uLongf size = SIZE;

    deflateInit2(&stream, level, Z_DEFLATED, MAX_WBITS, 8, strategy);
    stream.next_in = text;
    stream.avail_in = SIZE;
    stream.next_out = packed;
    stream.avail_out = sizeof packed;

    int answer = deflate(&stream, Z_FINISH);
    unsigned made = stream.total_out;

    deflateEnd(&stream);
    printf("level %d, strategy %d: %d, %u bytes, ", level, strategy, answer, made);
    printf("sum %08x", (unsigned)crc32(0, packed, made));
    memset(again, 0, SIZE);
    answer = uncompress(again, &size, packed, made);
    printf("; again: %d, %u bytes, %s\n", answer, (unsigned)size, memcmp(again, text, SIZE) ? "others" : "the same");
}

int main(void)
{
    text_make(text, SIZE);
    printf("zlib %s: %u bytes, sums %08x %08x\n", zlibVersion(), SIZE, (unsigned)adler32(1, text, SIZE),
           (unsigned)crc32(0, text, SIZE));
    compressed(1, Z_DEFAULT_STRATEGY);
    compressed(6, Z_DEFAULT_STRATEGY);
    compressed(9, Z_FIXED);
    compressed(0, Z_DEFAULT_STRATEGY);

    /* a byte that is another is seen */
    uLongf size = SIZE;

    packed[SIZE / 2] ^= 1;
    printf("damaged: %d\n", uncompress(again, &size, packed, sizeof packed));
    return 0;
}
