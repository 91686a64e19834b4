/* Waits for the end of the file server, which has none: the budget ends the run. */
#include "print.h"
#include "service.h"

void umain(int argc, char **argv)
{
    print("waits\n");
    wait(0x1000);
    print("not reached\n");
}
