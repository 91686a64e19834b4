# The kernel goes here at a page fault, with ESP at a struct UTrapframe. In bytes from there: 0 the address, 4 the error
# code, 8 the eight registers of PUSHA, 40 EIP, 44 EFLAGS, 48 ESP. (JOS: lib/pfentry.S)
    .text
    .globl _pgfault_upcall
_pgfault_upcall:
    pushl %esp                  # the frame's address is the handler's argument
    movl _pgfault_handler, %eax
    call *%eax
    addl $4, %esp

    # EIP goes on the stack of the fault, where RET will take it from. If the fault was in a handler, that stack is
    # this one, and the kernel left a word empty there.
    movl 48(%esp), %eax
    subl $4, %eax
    movl 40(%esp), %ecx
    movl %ecx, (%eax)
    movl %eax, 48(%esp)

    # Then all is as it was, each thing after the last instruction that changes it: the registers, the flags, ESP, EIP.
    addl $8, %esp
    popal
    addl $4, %esp
    popfl
    popl %esp
    ret
