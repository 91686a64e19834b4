/* Kinds of bytes. What is no byte, as EOF, is of no kind. */
#include <ctype.h>

enum { UPPER = 1, LOWER = 2, DIGIT = 4, HEXADECIMAL = 8, SPACE = 16, PUNCTUATION = 32, CONTROL = 64, BLANK = 128 };

static const unsigned char kinds[256] = {
    [0 ... 8] = CONTROL,
    ['\t'] = CONTROL | SPACE | BLANK,
    [10 ... 13] = CONTROL | SPACE,
    [14 ... 31] = CONTROL,
    [' '] = SPACE | BLANK,
    ['!' ... '/'] = PUNCTUATION,
    ['0' ... '9'] = DIGIT | HEXADECIMAL,
    [':' ... '@'] = PUNCTUATION,
    ['A' ... 'F'] = UPPER | HEXADECIMAL,
    ['G' ... 'Z'] = UPPER,
    ['[' ... '`'] = PUNCTUATION,
    ['a' ... 'f'] = LOWER | HEXADECIMAL,
    ['g' ... 'z'] = LOWER,
    ['{' ... '~'] = PUNCTUATION,
    [127] = CONTROL,
};

static int is(int c, int kind)
{
    return (unsigned)c < sizeof kinds ? kinds[c] & kind : 0;
}

int isalnum(int c)
{
    return is(c, UPPER | LOWER | DIGIT);
}

int isalpha(int c)
{
    return is(c, UPPER | LOWER);
}

int isblank(int c)
{
    return is(c, BLANK);
}

int iscntrl(int c)
{
    return is(c, CONTROL);
}

int isdigit(int c)
{
    return is(c, DIGIT);
}

int isgraph(int c)
{
    return is(c, UPPER | LOWER | DIGIT | PUNCTUATION);
}

int islower(int c)
{
    return is(c, LOWER);
}

int isprint(int c)
{
    return c == ' ' || isgraph(c);
}

int ispunct(int c)
{
    return is(c, PUNCTUATION);
}

int isspace(int c)
{
    return is(c, SPACE);
}

int isupper(int c)
{
    return is(c, UPPER);
}

int isxdigit(int c)
{
    return is(c, HEXADECIMAL);
}

int tolower(int c)
{
    return isupper(c) ? c + 'a' - 'A' : c;
}

int toupper(int c)
{
    return islower(c) ? c + 'A' - 'a' : c;
}
