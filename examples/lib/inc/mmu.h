/* Pages, their entries and the flags. (JOS: inc/mmu.h; Intel 80386, chapter 5) */
#ifndef INC_MMU_H
#define INC_MMU_H

#include "types.h"

/* An address is an index of the directory (10 bits), an index of a table (10 bits) and an offset (12 bits). */
#define PGSHIFT 12
#define PDXSHIFT 22
#define PGSIZE 4096u
#define PTSIZE (PGSIZE * NPTENTRIES)
#define NPTENTRIES 1024
#define NPDENTRIES 1024

#define PGNUM(va) ((uint32_t)(va) >> PGSHIFT)
#define PDX(va) ((uint32_t)(va) >> PDXSHIFT)
#define PTX(va) (PGNUM(va) & (NPTENTRIES - 1))
#define PGOFF(va) ((uint32_t)(va) & (PGSIZE - 1))

/* the first address of the page of a number */
#define PGADDR(pn) ((void *)((pn) << PGSHIFT))

/* the bits of an entry: there, may be written, a user may reach it, was reached, was written, left to software */
#define PTE_P 0x001
#define PTE_W 0x002
#define PTE_U 0x004
#define PTE_A 0x020
#define PTE_D 0x040
#define PTE_AVAIL 0xE00

/* those that a system call may set */
#define PTE_SYSCALL (PTE_AVAIL | PTE_P | PTE_W | PTE_U)

/* the address of the frame that an entry names, and the frame's number */
#define PTE_ADDR(entry) ((uint32_t)(entry) & ~(PGSIZE - 1))
#define PTE_FRAME(entry) PGNUM(entry)

/* the bits of a page fault's error code: a page is there, it was a write, it was a user's */
#define FEC_PR 0x1
#define FEC_WR 0x2
#define FEC_U 0x4

/* the flags */
#define FL_CF 0x001
#define FL_PF 0x004
#define FL_AF 0x010
#define FL_ZF 0x040
#define FL_SF 0x080
#define FL_IF 0x200
#define FL_DF 0x400
#define FL_OF 0x800

#endif
