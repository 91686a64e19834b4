/* A text: words of a small dictionary, by a linear congruential generator, and so the same on every machine. */
#ifndef TEXT_H
#define TEXT_H

static unsigned text_state = 1;

/* the next number below a bound */
static unsigned text_next(unsigned bound)
{
    text_state = text_state * 1103515245u + 12345u;
    return (text_state >> 16) % bound;
}

/* fills a buffer with so many bytes of words and lines */
static void text_make(unsigned char *buffer, unsigned size)
{
    static const char *const words[] = {
        "a",     "the",      "turn", "page", "kernel", "fault", "of", "environment",
        "frame", "schedule", "and",  "is",   "by",     "which",
    };
    const char *word = "";

    for (unsigned at = 0; at < size; at++) {
        if (*word) {
            buffer[at] = *word++;
        } else {
            word = words[text_next(sizeof words / sizeof *words)];
            buffer[at] = text_next(9) ? ' ' : '\n';
        }
    }
}

#endif
