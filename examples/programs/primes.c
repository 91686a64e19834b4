/* A sieve of environments, after Hoare and McIlroy: each has a prime, takes numbers from its left neighbour and sends on
   those that its prime does not divide, and the first that comes through makes the next environment. MIT's goes on until
   there are no environments left. This one sends a 0 behind the last number, by which each ends. (MIT 6.828, lab 4) */
#include "lib.h"

#define LIMIT 60

/* Every message is from the left neighbour, for nobody else knows of this environment. */
static void sieve(void)
{
    uint32_t prime, number;
    envid_t right = 0;

    while ((prime = ipc_recv(NULL, NULL, NULL)) != 0) {
        cprintf("%d is prime\n", prime);
        if ((right = fork()) < 0)
            panic("fork: %e", right);
        if (right == 0)
            continue;
        do {
            number = ipc_recv(NULL, NULL, NULL);
            if (number == 0 || number % prime)
                ipc_send(right, number, NULL, 0);
        } while (number != 0);
        return;
    }
}

void umain(int argc, char **argv)
{
    envid_t first = fork();
    if (first < 0)
        panic("fork: %e", first);
    if (first == 0) {
        sieve();
        return;
    }
    for (uint32_t number = 2; number < LIMIT; number++)
        ipc_send(first, number, NULL, 0);
    ipc_send(first, 0, NULL, 0);
}
