/* (JOS: lib/wait.c) */
#include "lib.h"

void wait(envid_t envid)
{
    const volatile struct Env *env = &envs[ENVX(envid)];

    while (env->env_id == envid && env->env_status != ENV_FREE)
        sys_yield();
}
