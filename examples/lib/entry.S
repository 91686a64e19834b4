# Where a program begins. Boot leaves ESP at the top of the stack; one who starts a program otherwise puts argc and argv
# there. (JOS: lib/entry.S)
    .text
    .globl _start
_start:
    cmpl $0xEEBFE000, %esp      # USTACKTOP
    jne 1f
    pushl $0
    pushl $0
1:  call libmain                # which does not come back
