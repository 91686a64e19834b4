/* The calls of the kernel. The number goes in EAX, the arguments in EDX, ECX, EBX, EDI and ESI, and the answer comes in
   EAX. (JOS: lib/syscall.c) */
#include "lib.h"

ALWAYS_INLINE int syscall(int num, uint32_t a1, uint32_t a2, uint32_t a3, uint32_t a4, uint32_t a5)
{
    int ret;

    /* "memory": the kernel reads and writes what the compiler does not see */
    __asm__ volatile("int %1"
                     : "=a"(ret)
                     : "i"(T_SYSCALL), "a"(num), "d"(a1), "c"(a2), "b"(a3), "D"(a4), "S"(a5)
                     : "memory", "cc");
    return ret;
}

void sys_cputs(const char *s, size_t len)
{
    syscall(SYS_cputs, (uint32_t)s, len, 0, 0, 0);
}

int sys_cgetc(void)
{
    return syscall(SYS_cgetc, 0, 0, 0, 0, 0);
}

envid_t sys_getenvid(void)
{
    return syscall(SYS_getenvid, 0, 0, 0, 0, 0);
}

int sys_env_destroy(envid_t envid)
{
    return syscall(SYS_env_destroy, envid, 0, 0, 0, 0);
}

int sys_page_alloc(envid_t envid, void *va, int perm)
{
    return syscall(SYS_page_alloc, envid, (uint32_t)va, perm, 0, 0);
}

int sys_page_map(envid_t srcenvid, void *srcva, envid_t dstenvid, void *dstva, int perm)
{
    return syscall(SYS_page_map, srcenvid, (uint32_t)srcva, dstenvid, (uint32_t)dstva, perm);
}

int sys_page_unmap(envid_t envid, void *va)
{
    return syscall(SYS_page_unmap, envid, (uint32_t)va, 0, 0, 0);
}

/* sys_exofork is in lib.h, since it has to be a part of its caller */

int sys_env_set_status(envid_t envid, int status)
{
    return syscall(SYS_env_set_status, envid, status, 0, 0, 0);
}

int sys_env_set_trapframe(envid_t envid, const struct Trapframe *tf)
{
    return syscall(SYS_env_set_trapframe, envid, (uint32_t)tf, 0, 0, 0);
}

int sys_env_set_pgfault_upcall(envid_t envid, void *upcall)
{
    return syscall(SYS_env_set_pgfault_upcall, envid, (uint32_t)upcall, 0, 0, 0);
}

void sys_yield(void)
{
    syscall(SYS_yield, 0, 0, 0, 0, 0);
}

int sys_ipc_try_send(envid_t to, uint32_t value, void *srcva, int perm)
{
    return syscall(SYS_ipc_try_send, to, value, (uint32_t)srcva, perm, 0);
}

int sys_ipc_recv(void *dstva, envid_t from)
{
    return syscall(SYS_ipc_recv, (uint32_t)dstva, from, 0, 0, 0);
}
