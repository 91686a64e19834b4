/* Jumps out of functions. */
#ifndef PORT_SETJMP_H
#define PORT_SETJMP_H

/* EBX, ESI, EDI, EBP, the ESP and the EIP behind the call */
typedef unsigned jmp_buf[6];
typedef jmp_buf sigjmp_buf;

#ifdef __cplusplus
extern "C" {
#endif

int setjmp(jmp_buf env) __attribute__((returns_twice));
void longjmp(jmp_buf env, int value) __attribute__((noreturn));

#ifdef __cplusplus
}
#endif

/* no signals, so nothing more to keep */
#define setjmp(env) setjmp(env)
#define _setjmp(env) setjmp(env)
#define _longjmp(env, value) longjmp(env, value)
#define sigsetjmp(env, mask) setjmp(env)
#define siglongjmp(env, value) longjmp(env, value)

#endif
