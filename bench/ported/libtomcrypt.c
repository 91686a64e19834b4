/* libtomcrypt: hashes, ciphers and what is built of them, each by the library's own test, which has vectors of the
   standards; and sums of a text. */
#include <stdio.h>
#include "text.h"
#include "tomcrypt.h"

#define SIZE 4000

#define TRIED(test) { #test, test }

static const struct {
    const char *name;
    int (*run)(void);
} tests[] = {
    TRIED(md4_test),         TRIED(md5_test),         TRIED(sha1_test),     TRIED(sha256_test),
    TRIED(sha512_test),      TRIED(sha3_256_test),    TRIED(rmd160_test),   TRIED(blake2s_256_test),
    TRIED(blake2b_512_test), TRIED(tiger_test),       TRIED(whirlpool_test), TRIED(rijndael_test),
    TRIED(des_test),         TRIED(blowfish_test),    TRIED(hmac_test),     TRIED(omac_test),
    TRIED(poly1305_test),    TRIED(ctr_test),         TRIED(ccm_test),      TRIED(chacha_test),
    TRIED(chacha20poly1305_test),
};

static void summed(const char *name, const unsigned char *text)
{
    unsigned char hash[MAXBLOCKSIZE];
    unsigned long size = sizeof hash;

    if (hash_memory(find_hash(name), text, SIZE, hash, &size) != CRYPT_OK)
        size = 0;
    printf("%s ", name);
    for (unsigned at = 0; at < size; at++)
        printf("%02x", hash[at]);
    printf("\n");
}

int main(void)
{
    static unsigned char text[SIZE];

    printf("libtomcrypt %s\n", SCRYPT);
    register_cipher(&aes_desc);
    register_hash(&md5_desc);
    register_hash(&sha1_desc);
    register_hash(&sha256_desc);
    register_hash(&sha512_desc);
    register_hash(&sha3_256_desc);
    for (unsigned k = 0; k < sizeof tests / sizeof *tests; k++)
        printf("%s: %s\n", tests[k].name, error_to_string(tests[k].run()));
    text_make(text, SIZE);
    summed("md5", text);
    summed("sha1", text);
    summed("sha256", text);
    summed("sha512", text);
    summed("sha3-256", text);
    return 0;
}
