/* Errors. A call that fails answers the number, negated. (JOS: inc/error.h) */
#ifndef INC_ERROR_H
#define INC_ERROR_H

enum {
    E_BAD_ENV = 2,      /* no such environment, or none that the caller may change */
    E_INVAL = 3,        /* an argument is out of its range */
    E_NO_MEM = 4,       /* there is no free frame */
    E_NO_FREE_ENV = 5,  /* there is no free slot */
    E_IPC_NOT_RECV = 7, /* the environment does not wait for a message, or not for this one */

    MAXERROR = 7,
};

#endif
