/* Environments, as the kernel shows them at UENVS. (JOS: inc/env.h; the record is this kernel's own) */
#ifndef INC_ENV_H
#define INC_ENV_H

#include "types.h"

/* An id has its slot in the low ten bits; above them it counts how often the slot was used. 0 is the caller. */
typedef int32_t envid_t;

#define LOG2NENV 10
#define NENV (1 << LOG2NENV)
#define ENVX(envid) ((envid) & (NENV - 1))

enum {
    ENV_FREE = 0,
    ENV_RUNNABLE = 2,
    ENV_RUNNING = 3,
    ENV_NOT_RUNNABLE = 4,
};

/* 16 words. Of a free slot all but the id are 0. */
struct Env {
    envid_t env_id;              /* of a free slot the last one, 0 where it was never used */
    envid_t env_parent_id;       /* who made it; 0 for an image */
    uint32_t env_type;           /* 0 */
    uint32_t env_status;         /* ENV_FREE .. */
    uint32_t env_runs;           /* how many turns it had, the one under way too */
    uint32_t env_pgdir;          /* the frame of its directory */
    uint32_t env_pgfault_upcall; /* where its page faults come in, or 0 */
    uint32_t env_ipc_recving;    /* 1 where it waits for a message, else 0 */
    envid_t env_ipc_wanted;      /* for whose: 0 for anyone's */
    uint32_t env_ipc_dstva;      /* where a page is to stand */
    uint32_t env_ipc_value;      /* the word of the last message */
    envid_t env_ipc_from;        /* its sender */
    uint32_t env_ipc_perm;       /* the permissions of the page that came with it, or 0 */
    uint32_t env_empty[3];       /* 0 */
};

#endif
