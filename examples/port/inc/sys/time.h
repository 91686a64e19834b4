/* A run knows no time. */
#ifndef PORT_SYS_TIME_H
#define PORT_SYS_TIME_H

#include <time.h>

struct timeval {
    time_t tv_sec;
    long tv_usec;
};

#ifdef __cplusplus
extern "C" {
#endif

int gettimeofday(struct timeval *now, void *zone); /* 0, and all of it is 0 */

#ifdef __cplusplus
}
#endif

#endif
