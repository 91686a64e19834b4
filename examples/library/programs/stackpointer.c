/* The stack pointer may lie anywhere but where the library has its own stacks, from 0xEEBFE800 up to 0xEEC00000: the
   instruction that brings it there ends the environment. Without a word it goes to the midst, with `first` to the first
   such address, and with `last` to the last. */
#include "print.h"
#include "service.h"
#include "string.h"

/* ESP is this for one instruction, and then what it was. */
static __attribute__((noinline)) void with_esp(uint32_t esp)
{
    __asm__ volatile("movl %%esp, %%ebx\n\t"
                     "movl %0, %%esp\n\t"
                     "movl %%ebx, %%esp"
                     :
                     : "a"(esp)
                     : "ebx");
}

void umain(int argc, char **argv)
{
    with_esp(0);
    with_esp(0x00400000);
    with_esp(0xEEBFE7FF);
    with_esp(0xEEC00000);
    with_esp(0xFFFFFFFF);
    print("it was outside\n");
    if (argc == 1)
        with_esp(0xEEBFFF00);
    else
        with_esp(strcmp(argv[1], "first") ? 0xEEBFFFFF : 0xEEBFE800);
    print("not reached\n");
}
