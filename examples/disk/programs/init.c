/* The first program of lab 5's system, without the shell that it starts there: it looks whether its data are as the image has them and its
   zeros are zeros, over several pages, and prints its words. (MIT 6.828, lab 5: user/init.c) */
#include "print.h"
#include "service.h"

#define WORDS 1500 /* more than a page */
#define PAGE_WORDS 1024

static volatile uint32_t data[WORDS] = { [0] = 1, [PAGE_WORDS - 1] = 2, [PAGE_WORDS] = 3, [WORDS - 1] = 4 };
static volatile uint32_t zeros[WORDS];

static uint32_t given(uint32_t at)
{
    switch (at) {
    case 0:
        return 1;
    case PAGE_WORDS - 1:
        return 2;
    case PAGE_WORDS:
        return 3;
    case WORDS - 1:
        return 4;
    default:
        return 0;
    }
}

void umain(int argc, char **argv)
{
    uint32_t others = 0, set = 0;

    print("init: running\n");
    for (uint32_t at = 0; at < WORDS; at++) {
        others += data[at] != given(at);
        set += zeros[at] != 0;
    }
    if (others == 0)
        print("init: data seems okay\n");
    else
        print_line("init: words of the data that are others", others);
    if (set == 0)
        print("init: bss seems okay\n");
    else
        print_line("init: words of the bss that are not 0", set);
    print("init: args:");
    for (int k = 0; k < argc; k++) {
        print(" '");
        print(argv[k]);
        print("'");
    }
    print("\n");
}
