/* From the entry to main, and on to the end. */
#include <stdio.h>
#include <stdlib.h>

#include "system.h"

int main(int argc, char **argv);

/* port.ld places them: how many bytes of stack there are to be, and the functions to call before main and behind it */
extern char port_stack_size[];
extern void (*const port_init_begin[])(int, char **);
extern void (*const port_init_end[])(int, char **);
extern void (*const port_fini_begin[])(void);
extern void (*const port_fini_end[])(void);

enum { FUNCTIONS = 64 };

struct registered {
    void (*function)(void *);
    void *argument;
};

static struct registered registered[FUNCTIONS];
static unsigned registered_count;

/* gcc has the destructors of static objects called by it. (`object` is the image's, and there is one) */
int __cxa_atexit(void (*function)(void *), void *argument, void *object)
{
    (void)object;
    if (registered_count == FUNCTIONS)
        return -1;
    registered[registered_count++] = (struct registered){ function, argument };
    return 0;
}

/* A function without an argument takes no notice of one. */
int atexit(void (*function)(void))
{
    return __cxa_atexit((void (*)(void *))(void *)function, NULL, NULL);
}

void _Exit(int status)
{
    (void)status;
    port_exit();
}

void exit(int status)
{
    while (registered_count > 0) {
        struct registered last = registered[--registered_count];
        last.function(last.argument);
    }
    for (void (*const *at)(void) = port_fini_end; at > port_fini_begin;)
        (*--at)();
    fflush(NULL);
    _Exit(status);
}

void abort(void)
{
    fflush(NULL);
    for (;;)
        __asm__ volatile("int3");
}

void __assert_fail(const char *text, const char *file, unsigned line)
{
    fprintf(stderr, "%s:%u: assertion failed: %s\n", file, line, text);
    abort();
}

static void map_stack(void)
{
    for (unsigned down = 2 * PAGE; down < (unsigned)port_stack_size + PAGE; down += PAGE) {
        if (!port_map(STACK_TOP - down)) {
            fputs("no memory for the stack\n", stderr);
            abort();
        }
    }
}

/* `exo` hands over no words. A program has at least its name, which is empty then. */
void port_begin(int argc, char **argv)
{
    static char *no_words[] = { "", NULL };

    map_stack();
    if (argc == 0) {
        argc = 1;
        argv = no_words;
    }
    for (void (*const *at)(int, char **) = port_init_begin; at < port_init_end; at++)
        (*at)(argc, argv);
    exit(main(argc, argv));
}
