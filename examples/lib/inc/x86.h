/* Single instructions. (JOS: inc/x86.h) */
#ifndef INC_X86_H
#define INC_X86_H

#include "types.h"

#define ALWAYS_INLINE static inline __attribute__((always_inline))

ALWAYS_INLINE void breakpoint(void)
{
    __asm__ volatile("int3");
}

/* Puts a word where another stood, and gives that. It is one instruction, so no turn ends in the midst of it. */
ALWAYS_INLINE uint32_t xchg(volatile uint32_t *addr, uint32_t newval)
{
    __asm__ volatile("xchgl %0, %1" : "+m"(*addr), "+r"(newval) : : "memory");
    return newval;
}

ALWAYS_INLINE uint32_t read_eflags(void)
{
    uint32_t eflags;
    __asm__ volatile("pushfl; popl %0" : "=r"(eflags));
    return eflags;
}

ALWAYS_INLINE uint32_t read_esp(void)
{
    uint32_t esp;
    __asm__ volatile("movl %%esp, %0" : "=r"(esp));
    return esp;
}

#endif
