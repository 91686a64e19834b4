/* The kernel's system call, INT 0x30, is none of a program under the library: trap 13, with error code 8 * 0x30 + 2. */
#include "print.h"
#include "service.h"

void umain(int argc, char **argv)
{
    print("asks the kernel\n");
    __asm__ volatile("int $0x30" : : "a"(2) : "memory");
    print("not reached\n");
}
