/* gcc's own, which would otherwise look for one of the system. */
#ifndef PORT_LIMITS_H
#define PORT_LIMITS_H

#define _LIBC_LIMITS_H_
#include_next <limits.h>

#define MB_LEN_MAX 1
#define PATH_MAX 1024
#define SSIZE_MAX INT_MAX

#endif
