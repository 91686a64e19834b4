/* Messages. (JOS: lib/ipc.c) */
#include "lib.h"

/* an address that stands for no page */
#define NO_PAGE ((void *)UTOP)

int32_t ipc_recv_from(envid_t from, void *pg, int *perm_store)
{
    int r = sys_ipc_recv(pg ? pg : NO_PAGE, from);

    if (perm_store)
        *perm_store = r < 0 ? 0 : thisenv->env_ipc_perm;
    return r < 0 ? r : (int32_t)thisenv->env_ipc_value;
}

int32_t ipc_recv(envid_t *from_env_store, void *pg, int *perm_store)
{
    int r = sys_ipc_recv(pg ? pg : NO_PAGE, 0);

    if (from_env_store)
        *from_env_store = r < 0 ? 0 : thisenv->env_ipc_from;
    if (perm_store)
        *perm_store = r < 0 ? 0 : thisenv->env_ipc_perm;
    return r < 0 ? r : (int32_t)thisenv->env_ipc_value;
}

void ipc_send(envid_t to, uint32_t value, void *pg, int perm)
{
    int r;

    while ((r = sys_ipc_try_send(to, value, pg ? pg : NO_PAGE, perm)) == -E_IPC_NOT_RECV)
        sys_yield();
    if (r < 0)
        panic("sys_ipc_try_send: %e", r);
}
