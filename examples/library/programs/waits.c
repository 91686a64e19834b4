/* Waits for a message, which nobody sends: the run is stuck. With one word it waits for one who sends from slot 2, where
   nobody is; with two it also wants a page. */
#include "print.h"
#include "service.h"

void umain(int argc, char **argv)
{
    struct message message;

    print("waits\n");
    receive(argc > 2 ? 0x00900000 : 0, argc > 1 ? 0x1002 : 0, &message);
    print("not reached\n");
}
