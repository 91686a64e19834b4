# Where a program begins. ESP is at argc, and behind that stands argv; so they are where the words of a call stand. When
# umain comes back, the environment ends. (JOS: lib/entry.S, lib/libmain.c)
    .text
    .globl _start
_start:
    call umain
    movl $0, %eax               # SERVICE_exit
    int $0x40                   # which does not come back
