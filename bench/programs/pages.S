# Gives itself a page and takes it away again, for ever: two calls in five steps. With PLAIN the calls are NOP.
#ifdef PLAIN
#define CALL nop
#else
#define CALL int $0x30
#endif
    .globl _start
_start:
    mov $0x900000, %ecx
    mov $7, %ebx
again:
    mov $4, %eax                # page_alloc(0, 0x900000, 7)
    CALL
    mov $6, %eax                # page_unmap(0, 0x900000)
    CALL
    jmp again
