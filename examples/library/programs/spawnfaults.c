/* A path, a list of words or a word of which a byte is on no page ends the program at that byte, when those before are taken. Each is done by a
   child; but for the last ones, which are answered. */
#include "mmu.h"
#include "print.h"
#include "service.h"

#define PAGE 0x00900000 /* and none behind it */
#define NOWHERE 0x30000000
#define LAST_WORD (PAGE + PGSIZE - 4)

static char *words[] = {"spawned", "exit", 0};

static void in_child(const char *what, uint32_t path, uint32_t argv)
{
    int child;

    print(what);
    print("\n");
    child = fork();
    if (child < 0)
        print_line("fork", child);
    if (child == 0) {
        print_line("answered", spawn(path, argv));
        exit();
    }
    wait(child);
}

void umain(int argc, char **argv)
{
    uint32_t path = (uint32_t)words[0], given = (uint32_t)words;
    static uint32_t list[3];

    page_new(PAGE, PAGE_WRITE);
    *(uint32_t *)LAST_WORD = 0x78787878; /* a path without an end */
    list[0] = path;
    in_child("path in no page", NOWHERE, given);
    in_child("path over the end of a page", LAST_WORD + 1, given);
    in_child("path in no page, and words outside", NOWHERE, 0);
    in_child("words in no page", path, NOWHERE + 1);
    in_child("a word in no page", path, (list[1] = NOWHERE + 3, (uint32_t)list));
    in_child("a word over the end of a page", path, (list[1] = LAST_WORD, (uint32_t)list));
    in_child("the first word in no page, and the second outside", path, (list[0] = NOWHERE, list[1] = 1, (uint32_t)list));
    in_child("the first word outside, and the second in no page", path, (list[0] = 1, list[1] = NOWHERE, (uint32_t)list));
    *(uint32_t *)LAST_WORD = path;
    in_child("words over the end of a page", path, LAST_WORD);
    in_child("words over the end of a page, amid an address", path, LAST_WORD + 2);
    in_child("words in no page, and no file", (uint32_t) "none", NOWHERE);
    *(uint32_t *)LAST_WORD = 0;
    in_child("no words at the end of a page", path, LAST_WORD);
    list[0] = path, list[1] = PAGE + PGSIZE - 1;
    in_child("a word up to the end of a page", path, (uint32_t)list);
}
