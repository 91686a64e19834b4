/* Parent and child send each other a number, raised by one each time, until one of them has ten. Who has a number says so
   before it sends the next, so the lines come in one order under every schedule. (MIT 6.828, lab 4) */
#include "print.h"
#include "service.h"

void umain(int argc, char **argv)
{
    struct message message;
    int child = fork();

    if (child < 0) {
        print_line("fork", child);
        return;
    }
    if (child > 0) {
        print_hex(getid());
        print_line(" sends 0 to", child);
        send(child, 0, 0);
    }
    do {
        receive(0, 0, &message);
        print_hex(getid());
        print(" has ");
        print_number(message.value);
        print_line(", sent by", message.sender);
        if (message.value < 10)
            send(message.sender, message.value + 1, 0);
    } while (message.value + 1 < 10);
}
