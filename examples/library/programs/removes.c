/* remove takes files from the disk, and refuses what it can't find or may not remove: fffffffd is 3 (E_INVAL), fffffff5 is 11
   (E_NOT_FOUND) and fffffff4 is 12 (E_BAD_PATH), negated. Paths stand at each address modulo 4, over the end of a page, and up to the
   end of the fence. A child removes files beside its parent, and of the one that both remove each path leads to it once. At last a path
   without a NUL runs into a page that is not there, which ends the program.

   With words behind it, it removes these instead. */
#include "mmu.h"
#include "print.h"
#include "service.h"
#include "string.h"

#define PAGE 0x00900000 /* and the next one */
#define LAST 0x003FF000 /* the last page before the fence's first gap */
#define SHARED 0x00A00000
#define ANSWERS ((volatile int *)SHARED)

#define LONGEST_NAME 127

/* A path is put at an address. */
static int remove_at(uint32_t va, const char *path)
{
    strcpy((char *)va, path);
    return remove(va);
}

static void removed(const char *path)
{
    print_line(path, remove((uint32_t)path));
}

/* So many letters, and a NUL behind them. */
static uint32_t letters(uint32_t va, uint32_t count)
{
    memset((char *)va, 'x', count);
    ((char *)va)[count] = 0;
    return va;
}

static void of_files(void)
{
    removed("short");
    removed("short");
    removed("/empty");
    removed("//long/");
    print_line("127 letters", remove(letters(PAGE + 1, LONGEST_NAME)));
    print_line("127 letters", remove(letters(PAGE + 2, LONGEST_NAME)));
}

static void of_others(void)
{
    removed("none");
    removed("none/short");
    removed("kept/short");
    removed("");
    removed("/");
}

static void of_long_paths(void)
{
    print_line("128 letters", remove(letters(PAGE + 3, LONGEST_NAME + 1)));
    strcpy((char *)PAGE, "none/");
    letters(PAGE + 5, LONGEST_NAME + 1);
    print_line("128 letters behind none", remove(PAGE));
    memset((char *)PAGE, '/', MAXPATHLEN);
    ((char *)PAGE)[MAXPATHLEN - 1] = 0;
    print_line("1023 slashes", remove(PAGE));
    ((char *)PAGE)[MAXPATHLEN - 1] = '/';
    print_line("1024 slashes", remove(PAGE));
}

/* Where one byte more would be in no page, or outside of the fence, a path may end. */
static void at_ends(void)
{
    print_line("over a page", remove_at(PAGE + PGSIZE - 2, "over"));
    memset((char *)PAGE + 2 * PGSIZE - MAXPATHLEN, '/', MAXPATHLEN);
    print_line("1024 slashes at the end", remove(PAGE + 2 * PGSIZE - MAXPATHLEN));
    print_line("the fence's end", remove_at(LAST + PGSIZE - 5, "last"));
    memcpy((char *)LAST + PGSIZE - 4, "last", 4);
    print_line("over the fence's end", remove(LAST + PGSIZE - 4));
    print_line("outside of the fence", remove(LAST + PGSIZE));
    print_line("at 0", remove(0));
}

static void beside_a_child(void)
{
    int child = fork();

    if (child < 0) {
        print_line("fork", child);
        exit();
    }
    if (child == 0) {
        ANSWERS[0] = remove((uint32_t) "child");
        ANSWERS[1] = remove((uint32_t) "none");
        ANSWERS[2] = remove((uint32_t) "both");
        exit();
    }
    removed("parent");
    removed("none");
    ANSWERS[3] = remove((uint32_t) "both");
    wait(child);
    print_line("child", ANSWERS[0]);
    print_line("none, by the child", ANSWERS[1]);
    print_line("both, by the one or the other", ANSWERS[2] + ANSWERS[3]);
}

void umain(int argc, char **argv)
{
    if (argc > 1) {
        for (int k = 1; k < argc; k++)
            removed(argv[k]);
        return;
    }
    page_new(PAGE, PAGE_WRITE);
    page_new(PAGE + PGSIZE, PAGE_WRITE);
    page_new(LAST, PAGE_WRITE);
    page_new(SHARED, PAGE_WRITE | PAGE_SHARED);

    of_files();
    of_others();
    of_long_paths();
    at_ends();
    beside_a_child();
    print_line("sync", sync());
    memset((char *)PAGE + 2 * PGSIZE - 9, 'x', 9);
    print_line("into no page", remove(PAGE + 2 * PGSIZE - 9));
}
