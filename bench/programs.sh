#!/bin/sh
# Measures the simulator on programs of gcc: each of programs/*.c, compiled at -O0 and at -O2 for the 80386 as one
# segment in one page, is run for RUNS million steps (100 without a word, and 1,000 at most). It prints the million
# steps a second and, where valgrind is installed, the machine instructions a step, counted by callgrind.
#
#     sh bench/programs.sh [RUNS]

runs=${1:-100}
if ! command -v gcc >/dev/null; then
    echo 'programs.sh: gcc is not installed' >&2
    exit 2
fi
. "$(dirname -- "$0")/jos.sh"

counted() {
    valgrind --tool=callgrind --callgrind-out-file=/dev/null "$program" exo --steps 1000000 "$folder/$1" 2>&1 >/dev/null </dev/null |
        awk '/Collected :/ { print $4 }'
}

for name in sieve search sort; do
    for level in -O0 -O2; do
        compile "$name" "$level" || exit 1
        speed=$(speed_of "$name") || exit 1
        if command -v valgrind >/dev/null; then
            count=$(echo "$(counted "$name") $(counted start)" |
                awk '{ printf ", %.0f machine instructions a step", ($1 - $2) / 1000000 }')
        fi
        echo "$name $level $speed" | awk -v count="$count" '{ printf "%-7s %s %6.1f million steps a second%s\n", $1, $2, $3, count }'
    done
done
