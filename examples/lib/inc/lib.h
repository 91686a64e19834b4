/* What a program of the bare kernel includes: the calls of the kernel, its windows, and what the library builds of them.
   Names are those of JOS where the thing is the same. (JOS: inc/lib.h)

   A call answers 0 or more, or an error as its number, negated. `docs/system-calls.md` says what each call does and
   refuses. */
#ifndef INC_LIB_H
#define INC_LIB_H

#include "assert.h"
#include "env.h"
#include "error.h"
#include "memlayout.h"
#include "stdio.h"
#include "string.h"
#include "syscall.h"
#include "trap.h"
#include "types.h"
#include "x86.h"

/* a mark of a page's entry that fork leaves shared, and of one that is copied when it is written */
#define PTE_SHARE 0x400
#define PTE_COW 0x800

/* ---- the program's own: where it begins. When it comes back, the environment ends. */
void umain(int argc, char **argv);

/* ---- the windows, placed by user.ld. They can only be read, and change under the program's hands. */
extern const volatile struct Env envs[NENV];
extern const volatile struct PageInfo pages[];
extern const volatile pte_t uvpt[]; /* by the number of a page */
extern const volatile pde_t uvpd[]; /* by the number of a region of 4 MB */

/* The record of the environment that asks. It is asked for each time, and not kept in a word, for that word would be the
   parent's in a child that shares its parent's pages. */
#define thisenv (&envs[ENVX(sys_getenvid())])

/* ---- syscall.c: the calls of the kernel */

void sys_cputs(const char *s, size_t len);
int sys_cgetc(void);
envid_t sys_getenvid(void);
int sys_env_destroy(envid_t envid);
int sys_page_alloc(envid_t envid, void *va, int perm);
int sys_page_map(envid_t srcenvid, void *srcva, envid_t dstenvid, void *dstva, int perm);
int sys_page_unmap(envid_t envid, void *va);
int sys_env_set_status(envid_t envid, int status);
int sys_env_set_trapframe(envid_t envid, const struct Trapframe *tf);
int sys_env_set_pgfault_upcall(envid_t envid, void *upcall);
void sys_yield(void);
int sys_ipc_try_send(envid_t to, uint32_t value, void *srcva, int perm);
int sys_ipc_recv(void *dstva, envid_t from);

/* It has to be a part of its caller: the child has no stack to return on until it is given pages. */
ALWAYS_INLINE envid_t sys_exofork(void)
{
    envid_t ret;
    __asm__ volatile("int %2" : "=a"(ret) : "a"(SYS_exofork), "i"(T_SYSCALL) : "memory", "cc");
    return ret;
}

/* ---- exit.c */
void exit(void) __attribute__((noreturn));

/* ---- pgfault.c: page faults go to a handler of the program's, on the exception stack */
void set_pgfault_handler(void (*handler)(struct UTrapframe *utf));

/* in pfentry.S: where the kernel goes at a page fault. It calls the handler, and then makes the instruction again. */
void _pgfault_upcall(void);

/* ---- fork.c */

/* A child that has the parent's pages as they are now; those that may be written are copied when one of the two writes,
   and those marked PTE_SHARE are one page for both. Answers the child's id, and 0 in the child. */
envid_t fork(void);

/* A child that shares all pages with its parent, but for the stack, which is copied when it is written. */
envid_t sfork(void);

/* ---- ipc.c */

/* Sends a word and, where pg is not 0, the page there. Tries until it is taken. */
void ipc_send(envid_t to, uint32_t value, void *pg, int perm);

/* Waits for a word, and where pg is not 0, for a page to stand there. Says whose it was and with which permissions the
   page came (0: none came), where the pointers are not 0. */
int32_t ipc_recv(envid_t *from_env_store, void *pg, int *perm_store);

/* The same, from one sender alone. The kernel refuses all others meanwhile. (Not in JOS) */
int32_t ipc_recv_from(envid_t from, void *pg, int *perm_store);

/* ---- wait.c: yields until that environment has ended */
void wait(envid_t envid);

#endif
