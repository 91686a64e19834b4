/* What stands where in an environment's memory. (JOS: inc/memlayout.h)

       ULIM, UVPT + PTSIZE  0xEF800000  nothing from here on
       UVPT                 0xEF400000  the entries of all pages, by their numbers       window
       UPAGES               0xEF000000  a struct PageInfo for each frame                 window
       UTOP, UENVS          0xEEC00000  a struct Env for each slot of the table          window
       UXSTACKTOP           0xEEC00000  above the exception stack, a page where a program mapped it
                            0xEEBFE000  (a page that is not mapped)
       USTACKTOP            0xEEBFE000  above the stack, of a page
       UTEXT                0x00800000  the program
       PFTEMP               0x007FF000  a page for a handler of page faults to copy in
       UTEMP                0x00400000  a page for the program to fill for another
       USTABDATA            0x00200000
*/
#ifndef INC_MEMLAYOUT_H
#define INC_MEMLAYOUT_H

#include "mmu.h"

#define ULIM 0xEF800000u
#define UVPT 0xEF400000u
#define UPAGES 0xEF000000u
#define UENVS 0xEEC00000u
#define UTOP 0xEEC00000u
#define UXSTACKTOP UTOP
#define USTACKTOP 0xEEBFE000u
#define UTEXT 0x00800000u
#define UTEMP 0x00400000u
#define PFTEMP (UTEXT - PGSIZE)
#define USTABDATA 0x00200000u

/* The record of a frame at UPAGES. How many page entries name the frame, and one more where it is reserved, a
   directory or a table; so 0 is a free one. The kernel does not tell the list of the free ones. */
struct PageInfo {
    uint32_t pp_empty;
    uint32_t pp_ref;
};

#endif
