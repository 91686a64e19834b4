/* A page fault changes no register: what the handler is told of them is what they were, and when it comes back they are
   that again, the flags too. (MIT 6.828, lab 4) */
#include "lib.h"

#define MISSING 0x00A00000u

/* the flags of sums, all but the reserved ones */
#define FLAGS (FL_CF | FL_PF | FL_AF | FL_ZF | FL_SF | FL_OF)

enum { EDI, ESI, EBP, EBX, EDX, ECX, EAX, EFLAGS, ESP, REGISTERS };

static const char *const names[REGISTERS] = { "edi", "esi", "ebp", "ebx", "edx", "ecx", "eax", "eflags", "esp" };

/* what the registers were before the fault, in its frame, and after it */
static volatile uint32_t before[REGISTERS], during[REGISTERS], after[REGISTERS];

static void handler(struct UTrapframe *utf)
{
    int r;

    during[EDI] = utf->utf_regs.reg_edi;
    during[ESI] = utf->utf_regs.reg_esi;
    during[EBP] = utf->utf_regs.reg_ebp;
    during[EBX] = utf->utf_regs.reg_ebx;
    during[EDX] = utf->utf_regs.reg_edx;
    during[ECX] = utf->utf_regs.reg_ecx;
    during[EAX] = utf->utf_regs.reg_eax;
    during[EFLAGS] = utf->utf_eflags;
    during[ESP] = utf->utf_esp;
    if ((r = sys_page_alloc(0, (void *)MISSING, PTE_P | PTE_U | PTE_W)) < 0)
        panic("sys_page_alloc: %e", r);
}

static void compare(const char *what, const volatile uint32_t *other)
{
    for (int k = 0; k < REGISTERS; k++)
        cprintf("%s %s %s\n", names[k], what, before[k] == other[k] ? "the same" : "CHANGED");
}

void umain(int argc, char **argv)
{
    set_pgfault_handler(handler);

    /* One block, so that nothing of the compiler's comes in between. It gives each register a number of its own and sets
       the flags, stores them all, writes where no page is, and stores them once more. */
    __asm__ volatile("pushal\n\t"
                     "pushl %[flags]\n\t"
                     "popfl\n\t"
                     "movl $0x11111111, %%edi\n\t"
                     "movl $0x22222222, %%esi\n\t"
                     "movl $0x33333333, %%ebp\n\t"
                     "movl $0x44444444, %%ebx\n\t"
                     "movl $0x55555555, %%edx\n\t"
                     "movl $0x66666666, %%ecx\n\t"
                     "movl $0x77777777, %%eax\n\t"
                     "movl %%edi, %c[before]+0\n\t"
                     "movl %%esi, %c[before]+4\n\t"
                     "movl %%ebp, %c[before]+8\n\t"
                     "movl %%ebx, %c[before]+12\n\t"
                     "movl %%edx, %c[before]+16\n\t"
                     "movl %%ecx, %c[before]+20\n\t"
                     "movl %%eax, %c[before]+24\n\t"
                     "pushfl\n\t"
                     "popl %c[before]+28\n\t"
                     "movl %%esp, %c[before]+32\n\t"
                     "movl %%eax, %c[missing]\n\t"
                     "movl %%edi, %c[after]+0\n\t"
                     "movl %%esi, %c[after]+4\n\t"
                     "movl %%ebp, %c[after]+8\n\t"
                     "movl %%ebx, %c[after]+12\n\t"
                     "movl %%edx, %c[after]+16\n\t"
                     "movl %%ecx, %c[after]+20\n\t"
                     "movl %%eax, %c[after]+24\n\t"
                     "pushfl\n\t"
                     "popl %c[after]+28\n\t"
                     "movl %%esp, %c[after]+32\n\t"
                     "popal"
                     :
                     : [flags] "i"(FLAGS), [missing] "i"(MISSING), [before] "i"(before), [after] "i"(after)
                     : "memory", "cc");

    cprintf("the write was made: %08x\n", *(volatile uint32_t *)MISSING);
    cprintf("flags that were set: %x\n", before[EFLAGS] & FLAGS);
    compare("in the handler", during);
    compare("behind the fault", after);
}
