/* Asks a device for something: that is trap 13, as the flags give no right to do so. With the word `in` it reads the port, with `cli` it forbids
   interrupts, and with `hlt` it halts the processor. (MIT 6.828, lab 5: user/faultio.c) */
#include "print.h"
#include "service.h"
#include "string.h"

#define IO_RIGHTS 0x3000 /* of EFLAGS */
#define DISK_PORT 0x1F6

void umain(int argc, char **argv)
{
    const char *what = argc > 1 ? argv[1] : "out";

    if (read_eflags() & IO_RIGHTS)
        print("the flags are wrong\n");
    print(what);
    print("\n");
    if (strcmp(what, "out") == 0)
        __asm__ volatile("outb %b0, %w1" : : "a"(0xF0), "d"(DISK_PORT));
    if (strcmp(what, "in") == 0)
        __asm__ volatile("inb %w0, %%al" : : "d"(DISK_PORT) : "eax");
    if (strcmp(what, "cli") == 0)
        __asm__ volatile("cli");
    if (strcmp(what, "hlt") == 0)
        __asm__ volatile("hlt");
    print("not reached\n");
}
