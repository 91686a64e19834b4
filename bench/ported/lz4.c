/* lz4: a text is compressed at several levels, uncompressed again and compared. It has less than 65,536 bytes: a longer
   one becomes others on a machine of 64 bits, since the library looks at five bytes at once there, and at four here. */
#include <stdio.h>
#include <string.h>
#include "lz4.h"
#include "lz4hc.h"
#include "text.h"
#include "xxhash.h"

#define SIZE 12000

static unsigned char text[SIZE], packed[LZ4_COMPRESSBOUND(SIZE)], again[SIZE];

static void compressed(const char *how, int level, int made)
{
    memset(again, 0, SIZE);

    int size = LZ4_decompress_safe((char *)packed, (char *)again, made, SIZE);

    printf("%s %d: %d bytes, sum %08x; again: %d bytes, %s\n", how, level, made, XXH32(packed, made, 0), size,
           memcmp(again, text, SIZE) ? "others" : "the same");
}

int main(void)
{
    unsigned long long wide;

    printf("lz4 %s\n", LZ4_versionString());
    text_make(text, SIZE);
    wide = XXH64(text, SIZE, 7);
    printf("sums %08x %08x%08x\n", XXH32(text, SIZE, 7), (unsigned)(wide >> 32), (unsigned)wide);
    for (int level = 1; level <= 9; level += 4)
        compressed("fast", level, LZ4_compress_fast((char *)text, (char *)packed, SIZE, sizeof packed, level));
    for (int level = 3; level <= 12; level += 3)
        compressed("high", level, LZ4_compress_HC((char *)text, (char *)packed, SIZE, sizeof packed, level));
    packed[1000] ^= 0x80;
    printf("damaged: %s\n", LZ4_decompress_safe((char *)packed, (char *)again, 1500, SIZE) < 0 ? "refused" : "taken");
    return 0;
}
