/* Makes children, each of which tells that it is there and then waits, until fork is refused since no slot is left, which is
   the answer -5 (E_NO_FREE_ENV): of the 1,024 slots the file server has one, and this program one. Then each child is told
   to end, and its slot is free again. */
#include "print.h"
#include "service.h"

#define SLOTS 1024

static uint32_t children[SLOTS];

void umain(int argc, char **argv)
{
    uint32_t parent = getid(), count = 0;
    struct message message;
    int child;

    while ((child = fork()) > 0) {
        receive(0, child, &message);
        children[count++] = child;
    }
    if (child == 0) {
        send(parent, 0, 0);
        receive(0, parent, &message);
        return;
    }
    print_number(count);
    print_line(" children, and then", child);
    for (uint32_t k = 0; k < count; k++) {
        send(children[k], 0, 0);
        wait(children[k]);
    }
    child = fork();
    if (child == 0)
        return;
    print_line("behind their end", child);
}
