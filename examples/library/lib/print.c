/* Texts and numbers on the console. */
#include "print.h"

#include "service.h"
#include "string.h"

void print(const char *text)
{
    cputs((uint32_t)text, strlen(text));
}

void print_hex(uint32_t number)
{
    char digits[8];

    for (int k = 7; k >= 0; k--, number /= 16)
        digits[k] = "0123456789abcdef"[number % 16];
    cputs((uint32_t)digits, sizeof digits);
}

void print_number(uint32_t number)
{
    char digits[10];
    uint32_t first = sizeof digits;

    do {
        digits[--first] = '0' + number % 10;
        number /= 10;
    } while (number > 0);
    cputs((uint32_t)&digits[first], sizeof digits - first);
}

void print_line(const char *what, uint32_t number)
{
    print(what);
    print(": ");
    print_hex(number);
    print("\n");
}
