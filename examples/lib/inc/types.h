/* Words, sizes and arithmetic on addresses. (JOS: inc/types.h)

   There is no 16-bit type here: gcc computes with `short` by instructions that this machine does not have. */
#ifndef INC_TYPES_H
#define INC_TYPES_H

#include <stdbool.h>
#include <stddef.h>

typedef signed char int8_t;
typedef unsigned char uint8_t;
typedef int int32_t;
typedef unsigned int uint32_t;
typedef long long int64_t;
typedef unsigned long long uint64_t;
typedef uint32_t uintptr_t;

/* the number of a page: its address divided by PGSIZE */
typedef uint32_t pn_t;

/* what stands in a page table, and in a directory */
typedef uint32_t pte_t;
typedef uint32_t pde_t;

#define MIN(a, b) ((a) < (b) ? (a) : (b))
#define MAX(a, b) ((a) > (b) ? (a) : (b))

/* to the multiple of a power of two below, and above */
#define ROUNDDOWN(a, n) ((uint32_t)(a) & -(uint32_t)(n))
#define ROUNDUP(a, n) ROUNDDOWN((uint32_t)(a) + (uint32_t)(n) - 1, n)

#endif
