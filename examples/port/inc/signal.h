/* Nobody sends signals. raise ends the program, as one does that has no handler. */
#ifndef PORT_SIGNAL_H
#define PORT_SIGNAL_H

#define SIGHUP 1
#define SIGINT 2
#define SIGILL 4
#define SIGABRT 6
#define SIGFPE 8
#define SIGSEGV 11
#define SIGPIPE 13
#define SIGALRM 14
#define SIGTERM 15

typedef int sig_atomic_t;
typedef void (*sighandler_t)(int);

#define SIG_DFL ((sighandler_t)0)
#define SIG_IGN ((sighandler_t)1)
#define SIG_ERR ((sighandler_t)-1)

#ifdef __cplusplus
extern "C" {
#endif

sighandler_t signal(int number, sighandler_t handler); /* takes no notice of it: SIG_DFL */
int raise(int number);

#ifdef __cplusplus
}
#endif

#endif
