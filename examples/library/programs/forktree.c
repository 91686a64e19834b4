/* A tree of forks, three levels deep: each environment makes two children, whose names are its own with a 0 and with a 1.
   Each waits until a child and all below it have ended before it makes the next, so that the lines come in one order under
   every schedule. With a word it does not wait: all 15 names come once, and their order is the schedule's. (MIT 6.828,
   lab 4) */
#include "print.h"
#include "service.h"
#include "string.h"

#define DEPTH 3

/* A line by one cputs, so that nobody else's comes in between. */
static void say(const char *name)
{
    static const char digits[] = "0123456789abcdef";
    char line[8 + 5 + DEPTH + 3];
    uint32_t id = getid();

    for (int k = 7; k >= 0; k--, id /= 16)
        line[k] = digits[id % 16];
    strcpy(line + 8, " is '");
    strcat(line, name);
    strcat(line, "'\n");
    print(line);
}

static void forktree(const char *name, int waits)
{
    char below[DEPTH + 1];

    say(name);
    if (strlen(name) == DEPTH)
        return;
    for (int k = 0; k < 2; k++) {
        int child = fork();
        if (child < 0) {
            print_line("fork", child);
            return;
        }
        if (child == 0) {
            strcpy(below, name);
            strcat(below, k ? "1" : "0");
            forktree(below, waits);
            exit();
        }
        if (waits)
            wait(child);
    }
}

void umain(int argc, char **argv)
{
    forktree("", argc == 1);
}
