/* What is always the same: there is one locale, nobody sends signals, and there is no environment. */
#include <locale.h>
#include <signal.h>
#include <stdlib.h>
#include <string.h>

char *setlocale(int category, const char *locale)
{
    (void)category;
    return !locale || !*locale || strcmp(locale, "C") == 0 ? "C" : NULL;
}

struct lconv *localeconv(void)
{
    static struct lconv conventions = { ".", "", "" };

    return &conventions;
}

sighandler_t signal(int number, sighandler_t handler)
{
    (void)number, (void)handler;
    return SIG_DFL;
}

int raise(int number)
{
    (void)number;
    abort();
}

char *getenv(const char *name)
{
    (void)name;
    return NULL;
}
