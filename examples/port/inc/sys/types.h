/* Types that programs of Unix name. */
#ifndef PORT_SYS_TYPES_H
#define PORT_SYS_TYPES_H

#include <stddef.h>
#include <stdint.h>
#include <time.h>

typedef int ssize_t;
typedef long off_t;
typedef int pid_t;
typedef unsigned uid_t;
typedef unsigned gid_t;
typedef unsigned mode_t;
typedef unsigned char u_char;
typedef unsigned short u_short;
typedef unsigned int u_int;
typedef unsigned long u_long;

#endif
