#!/usr/bin/env bash
# Measures what the services on files cost under `run`, by the program files.c, with a file of 1 MB. It prints
#
# - the steps, the turns and the nanoseconds of an open with its close, a seek, a stat, and a read and a write of 1, 64 and 4,088 bytes, where the
#   blocks are in the file server's cache;
# - the steps, the turns and the seconds in which the program copies that file to another, in pieces of 4,088 bytes;
# - the seconds of a run's start with a disk of 64 blocks, and with one of 16,384, which are 64 MiB, and the most memory that it takes.
#
#     bench/files.sh [RUNS]
#
# Times are of the processor, the least of RUNS runs (5 without a word). What a run takes that asks no more than once is taken off, and of a read and
# a write the seek before it. All is in turns without an end, so that a turn ends where an environment waits. Steps and turns are the same in each
# run; those of the program are as gcc compiles it.

count=${1:-5}
runs=100
times=10000
if ! command -v gcc >/dev/null; then
    echo 'files.sh: gcc is not installed' >&2
    exit 2
fi
. "$(dirname -- "$0")/jos.sh"

# as examples/library/Makefile builds a program
library=$here/examples/library/lib
gcc -m32 -march=i386 -O1 -std=gnu11 -ffreestanding -nostdlib -fno-pic -no-pie -static -fno-asynchronous-unwind-tables \
    -fno-stack-protector -fcf-protection=none -I"$library/inc" -I"$here/examples/lib/inc" -Wl,-T,"$library/user.ld" \
    -Wl,--build-id=none,-z,noexecstack,-z,max-page-size=4 -o "$folder/files" \
    "$library/entry.S" "$library/service.c" "$library/files.c" "$library/descriptors.c" "$library/opening.c" "$here/examples/lib/string.c" \
    "$here/bench/files.c" || exit 1
echo 1000000000 >"$folder/endless"
head -c 1048576 /dev/urandom >"$folder/source"
(cd "$folder" && "$program" mkfs disk 600 files source && "$program" mkfs small 64 start && "$program" mkfs large 16384 start) 2>/dev/null || exit 1
TIMEFORMAT='%U %S'

# measure WORD ..: the steps, the turns and the least seconds of runs of files.c by these words
measure() {
    local note least= k
    for ((k = 0; k < count; k++)); do
        cp "$folder/disk" "$folder/used"
        { time "$program" run --frames 4096 --steps 1000000000 --schedule "$folder/endless" -- "$folder/used" files "$@" \
            </dev/null >/dev/null 2>"$folder/note"; } 2>"$folder/took"
        note=$(cat "$folder/note")
        if [[ $note != 'done steps '*' refused 0 upcalls 0' ]]; then
            echo "files.sh: $*: $note" >&2
            exit 1
        fi
        least=$(echo "$least $(cat "$folder/took")" | awk '{ took = $(NF - 1) + $NF; print (NF < 3 || took < $1) ? took : $1 }')
    done
    echo "$note" | awk -v least="$least" '{ print $3, $5, least }'
}

# one TITLE WHAT SIZE [WITHOUT]: what one costs, without what else is done each time
one() {
    local many once
    many=$(measure "$2" "$times" "$3") && once=$(measure "$2" 0 "$3") || exit 1
    echo "$many $once ${4:-0 0 0}" | awk -v title="$1" -v times="$times" '{
        steps = ($1 - $4) / times - $7; turns = ($2 - $5) / times - $8; nanoseconds = ($3 - $6) * 1e9 / times - $9
        printf "%-34s %9.0f steps %5.1f turns %9.0f ns\n", title, steps, turns, nanoseconds
        print steps, turns, nanoseconds > "/dev/stderr" }' 2>"$folder/one"
}

one 'an open with its close' open 0
one 'a stat' stat 0
one 'a seek' seek 0
seek=$(cat "$folder/one")
for size in 1 64 4088; do
    [ "$size" != 4088 ] || times=500
    one "a read of $size bytes" read "$size" "$seek"
    one "a write of $size bytes" write "$size" "$seek"
done
copied=$(measure copy 0 4088) && nothing=$(measure nothing 0 0) || exit 1
echo "$copied $nothing" | awk '{ printf "1 MB copied: %d steps, %d turns, %.2f seconds\n", $1 - $4, $2 - $5, $3 - $6 }'

# begins TITLE DISK
begins() {
    local least= k memory
    for ((k = 0; k < count; k++)); do
        { time "$program" run -- "$folder/$2" start </dev/null >/dev/null 2>"$folder/note"; } 2>"$folder/took"
        least=$(echo "$least $(cat "$folder/took")" | awk '{ took = $(NF - 1) + $NF; print (NF < 3 || took < $1) ? took : $1 }')
    done
    memory=
    ! [ -x /usr/bin/time ] || memory=", $(/usr/bin/time -f '%M' "$program" run -- "$folder/$2" start </dev/null 2>&1 >/dev/null | tail -n 1) KB"
    echo "a run with a disk of $1: $least seconds$memory"
}
begins '64 blocks' small
begins '16,384 blocks' large
