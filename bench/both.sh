#!/bin/sh
# Counts the machine instructions that the simulator takes for a step under `exo` and under `run`, by callgrind, which counts
# them exactly: of the five loops, and of programs/*.c as gcc compiles them at -O2. What a run takes to start is taken off.
# It prints both counts of each, and how many times as many `run` takes.
#
#     sh bench/both.sh

runs=1
if ! command -v valgrind >/dev/null; then
    echo 'both.sh: valgrind is not installed' >&2
    exit 2
fi
. "$(dirname -- "$0")/jos.sh"

# counted COMMAND STEPS NAME: the machine instructions of a run of so many steps; `run` has its program from a disk
counted() {
    case $1 in
        exo) set -- "$1" "$2" "$folder/$3" ;;
        run) set -- "$1" "$2" "$folder/disk" "$3" ;;
    esac
    valgrind --tool=callgrind --callgrind-out-file=/dev/null "$program" "$1" --steps "$2" "$3" ${4+"$4"} 2>&1 >/dev/null </dev/null |
        awk '/Collected :/ { print $4 }'
}

# a_step COMMAND NAME: those of one step
a_step() {
    echo "$(counted "$1" 1500000 "$2") $(counted "$1" 500000 "$2")" | awk '{ print ($1 - $2) / 1000000 }'
}

programs=
if command -v gcc >/dev/null; then
    programs='sieve search sort'
fi
for name in $loops $programs; do
    case " $loops " in
        *" $name "*) image "$name" ;;
        *) compile "$name" -O2 || exit 1 ;;
    esac
    "$program" mkfs "$folder/disk" 64 "$folder/$name" 2>/dev/null || exit 1
    echo "$name $(a_step exo "$name") $(a_step run "$name")" |
        awk '{ printf "%-9s exo %6.1f, run %6.1f machine instructions a step: %.2f times\n", $1, $2, $3, $3 / $2 }'
done
