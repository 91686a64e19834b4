/* A chain of 20 forks: each child forks the next. On its way down each adds its depth to a word of static data, so that
   everybody has another word there; behind the fork a parent adds 1000 (hexadecimal), of which its child sees nothing. Who
   has forked waits for a message of its child, which has the child's word; so the lines come from the deepest upwards under
   every schedule. */
#include "print.h"
#include "service.h"

#define LENGTH 20

static volatile uint32_t sum;

void umain(int argc, char **argv)
{
    struct message message = {0, 0, 0};
    uint32_t parent = 0, id, depth = 0;
    int child;

    for (;;) {
        id = getid();
        if (depth == LENGTH)
            break;
        child = fork();
        if (child < 0) {
            print_line("fork", child);
            break;
        }
        if (child > 0) {
            sum += 0x1000;
            receive(0, child, &message);
            break;
        }
        parent = id;
        depth++;
        sum += depth;
    }
    print_number(depth);
    print(": ");
    print_hex(id);
    print(" has ");
    print_hex(sum);
    print_line(", its child", message.value);
    if (parent != 0)
        send(parent, sum, 0);
}
