/* From the entry to umain, and on to the end. (JOS: lib/libmain.c) */
#include "lib.h"

void libmain(int argc, char **argv)
{
    umain(argc, argv);
    exit();
}
