/* The words that a program is given: how many, each of them, the 0 behind their addresses, and that the last one ends
   where the stack does. The first is the image's name as it stands in the command. */
#include "print.h"
#include "service.h"
#include "string.h"

void umain(int argc, char **argv)
{
    print("argc ");
    print_number(argc);
    print("\n");
    for (int k = 0; k < argc; k++) {
        print("argv[");
        print_number(k);
        print("] ");
        print(argv[k]);
        print("\n");
    }
    print_line("behind them", (uint32_t)argv[argc]);
    print_line("they end at", (uint32_t)argv[argc - 1] + strlen(argv[argc - 1]) + 1);
}
