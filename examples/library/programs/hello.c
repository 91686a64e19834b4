/* Prints a text: the least that a program under the library can be seen to do. */
#include "print.h"
#include "service.h"

void umain(int argc, char **argv)
{
    print("hello, world\n");
}
