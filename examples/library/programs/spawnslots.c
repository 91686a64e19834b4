/* Where no environment is free spawn answers fffffffb, which is 5 (E_NO_FREE_ENV), negated, but what is wrong with the file it answers before; and when
   one has ended a program is started in its place. */
#include "print.h"
#include "service.h"

void umain(int argc, char **argv)
{
    static char *words[] = {"spawned", "exit", 0};
    struct message message;
    int child, last = 0;

    while ((child = fork()) > 0)
        last = child;
    if (child == 0) {
        receive(0, 0, &message);
        return;
    }
    print_line("fork", child);
    print_line("the last child", last);
    print_line("spawn", spawn((uint32_t)words[0], (uint32_t)words));
    print_line("spawn of no file", spawn((uint32_t) "none", (uint32_t)words));
    print_line("spawn of no image", spawn((uint32_t) "long", (uint32_t)words));
    print_line("send", send(last, 0, 0));
    print_line("wait", wait(last));
    child = spawn((uint32_t)words[0], (uint32_t)words);
    print_line("spawn", child);
    print_line("wait", wait(child));
    exit();
}
