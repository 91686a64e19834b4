/* Fills 64 words with numbers and sorts them by insertion, again and again. */
static unsigned words[64];

void sort(unsigned *list, int len)
{
    for (int k = 1; k < len; k++) {
        unsigned word = list[k];
        int j = k;
        for (; j > 0 && list[j - 1] > word; j--)
            list[j] = list[j - 1];
        list[j] = word;
    }
}

void _start(void)
{
    unsigned seed = 1;

    for (;;) {
        for (int k = 0; k < 64; k++) {
            seed = seed * 1664525 + 1013904223;
            words[k] = seed >> 8;
        }
        sort(words, 64);
    }
}
