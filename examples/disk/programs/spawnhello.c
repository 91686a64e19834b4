/* Starts /hello and waits for its end. With words it starts the program that the first one names, and gives it them all: so
   `spawnhello /init one two` does what lab 5's user/spawninit.c does, and `spawnhello /faultio` what user/spawnfaultio.c does.
   (MIT 6.828, lab 5: user/spawnhello.c) */
#include "print.h"
#include "service.h"

void umain(int argc, char **argv)
{
    static const char *const hello[] = { "/hello", 0 };
    const char *const *words = argc > 1 ? (const char *const *)argv + 1 : hello;
    int child;

    print_line("this is the parent", getid());
    child = spawn((uint32_t)words[0], (uint32_t)words);
    if (child < 0) {
        print_line("spawn", child);
        return;
    }
    wait(child);
    print_line("it has ended", child);
}
