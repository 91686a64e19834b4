/* Asks for its id, twice. The file server has slot 0, and so the first program has slot 1. */
#include "print.h"
#include "service.h"

void umain(int argc, char **argv)
{
    print_line("id", getid());
    print_line("id", getid());
}
