/* gcc's own, which would otherwise look for one of the system. */
#ifndef PORT_STDINT_H
#define PORT_STDINT_H

#include <stdint-gcc.h>

#endif
