#!/bin/sh
# Writes the image of pages.c to a file:
#
#     sh crates/jos/data/make-pages.sh FILE
#
# It takes a gcc that compiles for the 80386.
set -e
here=$(CDPATH='' cd -- "$(dirname -- "$0")" && pwd -P)
gcc -m32 -march=i386 -O1 -ffreestanding -fno-pic -no-pie -nostdlib -static -fno-stack-protector \
    -fno-asynchronous-unwind-tables -fcf-protection=none -mno-sse -Wl,-T,"$here/pages.ld" \
    -Wl,--build-id=none,-z,noexecstack,-z,max-page-size=4096 -s -o "${1:?no file is named}" "$here/pages.c"
