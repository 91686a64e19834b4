# Reads where no page is, for ever; the handler goes back behind the read, with ESP as it was: one upcall in four steps.
# With PLAIN the read is a jump to the same handler, which finds the same ESP on the stack.
#ifdef PLAIN
#define FAULT jmp handler
#else
#define FAULT mov (%ebx), %eax
#endif
    .globl _start
_start:
    mov $0xeebff000, %ecx
    mov $7, %ebx
    mov $4, %eax                # page_alloc(0, 0xeebff000, 7): the exception stack
    int $0x30
    mov $handler, %ecx
    mov $10, %eax               # env_set_pgfault_upcall(0, handler)
    int $0x30
    mov $0x900000, %ebx
    sub $64, %esp
    mov %esp, 48(%esp)
again:
    FAULT
behind:
    jmp again
handler:
    mov 48(%esp), %esp
    jmp behind
