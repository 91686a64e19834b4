/* Programs of the disk are started, each with the words that it is given: the first need not be the path, there may be sixteen, and one may have no
   bytes. Each begins with the same registers, and with pages of its own, whatever the one that starts it has there. The ids are those of the slots,
   which are free again when a program has ended. */
#include "print.h"
#include "service.h"

static volatile uint32_t datum = 7;

static void start(const char *path, char **argv)
{
    int child = spawn((uint32_t)path, (uint32_t)argv);

    print_line("wait", wait(child));
    print_line(path, child);
}

void umain(int argc, char **argv)
{
    static char *one[] = {"args", 0};
    static char *many[] = {"1", "2", "3", "4", "5", "6", "7", "8", "9", "10", "11", "12", "13", "14", "15", "16", 0};
    static char *odd[] = {"another name", "", "two words", "", 0};

    start("args", one);
    start("/args", odd);
    start("//args/", many);
    start("beginning", one);
    start("hello", one);
    start("readonly", one);
    print_line("the one that starts them has", datum);
}
