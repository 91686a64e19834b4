/* Gives up its turn ten times. It is alone, and so has the next one too. */
#include "print.h"
#include "service.h"

void umain(int argc, char **argv)
{
    for (int k = 1; k <= 10; k++) {
        print("yield ");
        print_number(k);
        print_line("", service(SERVICE_yield, 0, 0, 0));
    }
}
