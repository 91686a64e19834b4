/* TRE: expressions, the texts that they match and where, exactly and with errors; and a search in a longer text. */
#include <stdio.h>
#include <string.h>
#include "tre.h"
#include "text.h"

#define SIZE 5000

#define COUNT(list) (sizeof list / sizeof *list)

static const char *const expressions[] = {
    "^(a|b)*c$", "([a-z]+)@([a-z]+)\\.(com|org)", "(a*)(ab)*(b*)", "\\<the\\>", "(.)\\1",
    "[[:digit:]]{2,4}-[[:alpha:]]+", "(", "[z-a]", "a{3,1}", "(x+x+)+y", "^[^[:space:]]*$",
};

static const char *const texts[] = {
    "ababac", "mail bob@site.org now", "abbb", "over the hill", "hello", "in 1996-may or", "xxxxxxxxxxxxxxxxxx", "",
};

static void matched(const char *expression)
{
    regex_t compiled;
    regmatch_t places[4];
    char message[100];
    int answer = tre_regcomp(&compiled, expression, REG_EXTENDED);

    tre_regerror(answer, &compiled, message, sizeof message);
    printf("%s: %s\n", expression, message);
    if (answer)
        return;
    for (unsigned k = 0; k < COUNT(texts); k++) {
        if (tre_regexec(&compiled, texts[k], COUNT(places), places, 0))
            continue;
        printf("  '%s'", texts[k]);
        for (unsigned part = 0; part < COUNT(places); part++)
            printf(" %d-%d", (int)places[part].rm_so, (int)places[part].rm_eo);
        printf("\n");
    }
    tre_regfree(&compiled);
}

/* with no more than so many errors */
static void nearly(const char *word, const char *text, int errors)
{
    regex_t compiled;
    regaparams_t costs;
    regmatch_t place;
    regamatch_t found = { 0 };

    tre_regcomp(&compiled, word, REG_EXTENDED);
    tre_regaparams_default(&costs);
    costs.max_cost = errors;
    found.nmatch = 1;
    found.pmatch = &place;
    if (tre_regaexec(&compiled, text, &found, costs, 0))
        printf("%s within %d: none\n", word, errors);
    else
        printf("%s within %d: %d-%d with %d\n", word, errors, (int)place.rm_so, (int)place.rm_eo, found.cost);
    tre_regfree(&compiled);
}

/* how often it is in a text */
static void counted(const char *expression, const char *text)
{
    regex_t compiled;
    regmatch_t place;
    unsigned count = 0, sum = 0;

    tre_regcomp(&compiled, expression, REG_EXTENDED | REG_ICASE | REG_NEWLINE);
    for (unsigned at = 0; !tre_regexec(&compiled, text + at, 1, &place, at ? REG_NOTBOL : 0); count++) {
        sum = sum * 31 + at + place.rm_so;
        at += place.rm_eo + (place.rm_eo == place.rm_so);
    }
    printf("%s: %u times, sum %08x\n", expression, count, sum);
    tre_regfree(&compiled);
}

int main(void)
{
    static unsigned char text[SIZE + 1];

    for (unsigned k = 0; k < COUNT(expressions); k++)
        matched(expressions[k]);
    for (int errors = 0; errors <= 3; errors++)
        nearly("environment", "an enviromnet of its own", errors);
    text_make(text, SIZE);
    counted("the (page|frame)s?", (char *)text);
    counted("^[a-k]+ (of|by) ", (char *)text);
    counted("([a-z])[a-z]*\\1$", (char *)text);
    return 0;
}
