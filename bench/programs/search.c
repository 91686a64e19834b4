/* Finds a word in a text, again and again, by comparing at each place. */
static const char text[] =
    "The exokernel gives pages, environments, turns, messages and a console. All else is a library "
    "outside the kernel: copy-on-write fork, spawn, pipes, descriptors, a file server with a block "
    "cache, a shell. Every preemption is an input, so one run is one chosen interleaving.";

int place(const char *in, const char *word)
{
    for (int at = 0; in[at]; at++) {
        int k = 0;
        while (word[k] && in[at + k] == word[k])
            k++;
        if (!word[k])
            return at;
    }
    return -1;
}

static volatile int found;

void _start(void)
{
    for (;;)
        found = place(text, "interleaving");
}
