# Two environments of this image, alone in a kernel: the first sends words to the second, which takes them, for ever.
# Where the second does not wait yet, the first gives up its turn. That is a word in two turns and 14 steps, four of them
# calls. With PLAIN the calls are NOP.
#ifdef PLAIN
#define CALL nop
#else
#define CALL int $0x30
#endif
    .globl _start
_start:
    mov $2, %eax                # getenvid()
    int $0x30
    cmp $0x1000, %eax
    mov $0xeec00000, %edx       # no page is wanted
    jne take
    mov $0x1001, %edx
    mov $0xeec00000, %ebx       # and none is sent
send:
    mov $12, %eax               # ipc_try_send(0x1001, 0, 0xeec00000, 0)
    CALL
    test %eax, %eax
    jz send
    mov $11, %eax               # yield()
    CALL
    jmp send
take:
    mov $13, %eax               # ipc_recv(0xeec00000, 0)
    CALL
    jmp take
