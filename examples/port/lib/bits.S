# What widen puts in the place of BSF and BSR: the number of the lowest and of the highest bit of the word on the
# stack, which takes that word's place. Of 0 the place keeps a 0; ZF says whether the word was 0, as those two do.
# All registers and nothing else stay as they are.
    .text
    .globl port_lowest_bit, port_highest_bit
port_lowest_bit:
    pushl %eax
    movl 8(%esp), %eax
    pushl %ecx
    pushl %edx
    pushl %eax
    testl %eax, %eax
    je 1f
    call __ctzsi2
    jmp 2f

port_highest_bit:
    pushl %eax
    movl 8(%esp), %eax
    pushl %ecx
    pushl %edx
    pushl %eax
    testl %eax, %eax
    je 1f
    call __clzsi2
    xorl $31, %eax
2:  movl %eax, 20(%esp)
1:  popl %eax
    testl %eax, %eax
    popl %edx
    popl %ecx
    popl %eax
    ret
