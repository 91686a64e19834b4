/* The numbers of the system calls. (JOS: inc/syscall.h) */
#ifndef INC_SYSCALL_H
#define INC_SYSCALL_H

enum {
    SYS_cputs = 0,
    SYS_cgetc = 1,
    SYS_getenvid = 2,
    SYS_env_destroy = 3,
    SYS_page_alloc = 4,
    SYS_page_map = 5,
    SYS_page_unmap = 6,
    SYS_exofork = 7,
    SYS_env_set_status = 8,
    SYS_env_set_trapframe = 9,
    SYS_env_set_pgfault_upcall = 10,
    SYS_yield = 11,
    SYS_ipc_try_send = 12,
    SYS_ipc_recv = 13,
    NSYSCALLS = 14,
};

/* the most bytes of one sys_cputs */
#define CPUTS_MAX 4096

#endif
