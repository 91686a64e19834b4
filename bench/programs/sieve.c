/* Counts the primes below 512, again and again. */
static unsigned char composite[512];

int count(void)
{
    int primes = 0;

    for (int k = 2; k < 512; k++)
        composite[k] = 0;
    for (int k = 2; k < 512; k++) {
        if (composite[k])
            continue;
        primes++;
        for (int j = k * k; j < 512; j += k)
            composite[j] = 1;
    }
    return primes;
}

void _start(void)
{
    for (;;)
        count();
}
