/* The registers with which a program begins: all are 0 but EIP, EFLAGS and ESP, and ESP is at argc, behind which argv
   stands. */
#include "print.h"
#include "service.h"

/* what stands on the stack from below when the flags and then all registers are pushed there by umain */
struct beginning {
    uint32_t edi, esi, ebp, esp, ebx, edx, ecx, eax;
    uint32_t eflags;
    uint32_t back; /* the address behind the call of umain */
    uint32_t argc;
    uint32_t argv;
};

void show(const struct beginning *at);

void show(const struct beginning *at)
{
    print_line("eax", at->eax);
    print_line("ecx", at->ecx);
    print_line("edx", at->edx);
    print_line("ebx", at->ebx);
    print_line("esp", (uint32_t)&at->argc);
    print_line("ebp", at->ebp);
    print_line("esi", at->esi);
    print_line("edi", at->edi);
    print_line("eflags", at->eflags);
    print_line("argc", at->argc);
    print_line("argv", at->argv);
    exit();
}

/* It comes back nowhere, so the address behind the call is left where it stands. */
__asm__(".globl umain\n"
        "umain: pushfl\n\t"
        "pushal\n\t"
        "pushl %esp\n\t"
        "call show");
