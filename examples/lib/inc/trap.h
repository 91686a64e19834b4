/* Traps, and registers as words in memory. (JOS: inc/trap.h) */
#ifndef INC_TRAP_H
#define INC_TRAP_H

#include "types.h"

enum {
    T_DIVIDE = 0,
    T_BRKPT = 3,
    T_ILLOP = 6,
    T_GPFLT = 13,
    T_PGFLT = 14,
    T_SYSCALL = 0x30,
};

/* as PUSHA puts them on the stack */
struct PushRegs {
    uint32_t reg_edi;
    uint32_t reg_esi;
    uint32_t reg_ebp;
    uint32_t reg_oesp; /* the ESP of before; POPA passes over it */
    uint32_t reg_ebx;
    uint32_t reg_edx;
    uint32_t reg_ecx;
    uint32_t reg_eax;
};

/* What sys_env_set_trapframe takes, 17 words. What is called `ignored` is the segments', and the trap's. */
struct Trapframe {
    struct PushRegs tf_regs;
    uint32_t tf_ignored[4];
    uintptr_t tf_eip;
    uint32_t tf_ignored_cs;
    uint32_t tf_eflags;
    uintptr_t tf_esp;
    uint32_t tf_ignored_ss;
};

/* what the kernel puts on the exception stack at a page fault, 13 words */
struct UTrapframe {
    uintptr_t utf_fault_va;
    uint32_t utf_err;
    struct PushRegs utf_regs;
    uintptr_t utf_eip;
    uint32_t utf_eflags;
    uintptr_t utf_esp;
};

#endif
