/* Nothing: the machine has no floating point. It is here so that what includes it and does not use it is compiled. */
#ifndef PORT_MATH_H
#define PORT_MATH_H

#endif
