/* A longer computation over pages of its own: the primes below 10,000 by a sieve of a byte a number, counted and summed; and
   those below 4,096 once more, in a shared page that is a copy of the first. No schedule changes what is printed. */
#include "mmu.h"
#include "print.h"
#include "service.h"
#include "string.h"

#define NUMBERS 10000u
#define SIEVE 0x10000000u
#define COPY 0xD0400000u

static void show(const char *what, uint32_t number)
{
    print(what);
    print_number(number);
    print("\n");
}

void umain(int argc, char **argv)
{
    uint8_t *is_product = (uint8_t *)SIEVE;
    uint32_t count = 0, sum = 0, last = 0;

    for (uint32_t va = SIEVE; va < SIEVE + NUMBERS; va += PGSIZE)
        page_new(va, PAGE_WRITE);
    for (uint32_t p = 2; p * p < NUMBERS; p++)
        if (!is_product[p])
            for (uint32_t k = p * p; k < NUMBERS; k += p)
                is_product[k] = 1;
    for (uint32_t n = 2; n < NUMBERS; n++)
        if (!is_product[n])
            count++, sum += n, last = n;
    show("primes: ", count);
    show("sum: ", sum);
    show("the last: ", last);

    page_new(COPY, PAGE_WRITE | PAGE_SHARED);
    memcpy((void *)COPY, is_product, PGSIZE);
    page_drop(SIEVE);
    count = 0;
    for (uint32_t n = 2; n < PGSIZE; n++)
        count += !((uint8_t *)COPY)[n];
    show("below 4096: ", count);
}
