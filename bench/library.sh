#!/bin/sh
# Compares printf and strings of the examples' library with those of the C library of this machine, on random blocks among
# others; it takes a gcc for an x86-64. The last line is 'N differences'.
#
#     sh bench/library.sh
set -e
here=$(CDPATH='' cd -- "$(dirname -- "$0")" && pwd -P)
folder=$(mktemp -d)
trap 'rm -rf "$folder"' EXIT

# the library's functions under other names, and a pointer as wide as this machine's
cp -r "$here/../examples/lib" "$folder"
sed -i 's/^typedef uint32_t uintptr_t;/typedef __UINTPTR_TYPE__ uintptr_t;/' "$folder/lib/inc/types.h"
names=
for name in memset memcpy memmove memcmp strlen strnlen strcpy strcat strchr strcmp strncmp snprintf vsnprintf cprintf vcprintf; do
    names="$names -D$name=our_$name"
done
for part in string printf; do
    # shellcheck disable=SC2086 # the names are words
    gcc -w -O1 -ffreestanding -fno-builtin $names -I"$folder/lib/inc" -c -o "$folder/$part.o" "$folder/lib/$part.c"
done
gcc -w -fno-builtin -o "$folder/compare" "$here/library.c" "$folder/string.o" "$folder/printf.o"
"$folder/compare"
