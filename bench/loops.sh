#!/bin/sh
# Measures the simulator: five loops, each run for RUNS million steps (100 without a word, and 1,000 at most), and prints
# the million steps a second of each.
#
#     sh bench/loops.sh [RUNS]

runs=${1:-100}
. "$(dirname -- "$0")/jos.sh"

for loop in $loops; do
    speed=$(jos_speed "$loop") || exit 1
    echo "$loop $speed" | awk '{ printf "%-9s %6.1f million steps a second\n", $1, $2 }'
done
