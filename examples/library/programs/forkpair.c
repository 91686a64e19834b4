/* fork answers twice: the child's id in the parent, and 0 in the child. Each says who it is; the parent waits until the child
   has ended, so that the lines come in one order under every schedule. Then the child's id is nobody's. */
#include "print.h"
#include "service.h"

static void is(const char *who, uint32_t id)
{
    print(who);
    print_line(" is", id);
}

void umain(int argc, char **argv)
{
    uint32_t parent = getid();
    int child = fork();

    if (child < 0) {
        print_line("fork", child);
        return;
    }
    if (child == 0) {
        is("the child", getid());
        is("its parent", parent);
        return;
    }
    print_line("wait", wait(child));
    is("the parent", getid());
    is("its child", child);
    print_line("send to the child", send(child, 0, 0));
}
