/* bzip2: a text is compressed, uncompressed again and compared; also where memory is to be spared. */
#include <stdio.h>
#include <string.h>
#include "bzlib.h"
#include "text.h"

#define SIZE 12000

static unsigned char text[SIZE], packed[SIZE + 1000], again[SIZE];

/* what the library calls when it finds itself at fault */
void bz_internal_error(int code)
{
    printf("internal error %d\n", code);
}

static unsigned sum(const unsigned char *bytes, unsigned size)
{
    unsigned total = 0;

    for (unsigned at = 0; at < size; at++)
        total = total * 31 + bytes[at];
    return total;
}

static void compressed(int small)
{
    unsigned made = sizeof packed, size = SIZE;
    int answer = BZ2_bzBuffToBuffCompress((char *)packed, &made, (char *)text, SIZE, 1, 0, 0);

    printf("%d, %u bytes, sum %08x", answer, made, sum(packed, made));
    memset(again, 0, SIZE);
    answer = BZ2_bzBuffToBuffDecompress((char *)again, &size, (char *)packed, made, small, 0);
    printf("; again: %d, %u bytes, %s\n", answer, size, memcmp(again, text, SIZE) ? "others" : "the same");
}

int main(void)
{
    unsigned size = SIZE;

    printf("bzip2 %s\n", BZ2_bzlibVersion());
    text_make(text, SIZE);
    compressed(0);
    compressed(1);
    packed[100] ^= 1;
    printf("damaged: %d\n", BZ2_bzBuffToBuffDecompress((char *)again, &size, (char *)packed, sizeof packed, 0, 0));
    return 0;
}
