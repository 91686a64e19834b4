#!/usr/bin/env bash
# Measures what fork costs under `run`, by the program forks.c, and how fast `run` is beside `exo`. It prints
#
# - the steps and the nanoseconds of a fork, with the child's end and its parent's wait for that, where the program has 1, 16 or
#   256 pages of its own and has written them, and where it has 1 and a page was copied for it before;
# - the same of a page that is copied when it is written, by the child and by the parent;
# - the steps and the seconds of 1,000 forks, and of the run that makes them;
# - the seconds of 100,000,000 steps of each loop of loops.sh, under the one and under the other.
#
# With nanoseconds stand the machine instructions, where valgrind is installed: callgrind counts them, and no load changes them.
#
#     bench/forks.sh [RUNS]
#
# Times are of the processor, the least of RUNS runs (5 without a word), which take turns with those of the other lines. What a run
# takes without children is taken off, and of a page what it takes to write it once more, when nothing is copied. All but the 1,000
# forks are made in turns without an end: where turns end, wait tries more often or less. Steps are the same in each run; those
# of the program are as gcc compiles it. All of it takes some minutes.

count=${1:-5}
runs=100
if ! command -v gcc >/dev/null; then
    echo 'forks.sh: gcc is not installed' >&2
    exit 2
fi
. "$(dirname -- "$0")/jos.sh"

# as examples/library/Makefile builds a program
library=$here/examples/library/lib
gcc -m32 -march=i386 -O1 -std=gnu11 -ffreestanding -nostdlib -fno-pic -no-pie -static -fno-asynchronous-unwind-tables \
    -fno-stack-protector -fcf-protection=none -I"$library/inc" -I"$here/examples/lib/inc" -Wl,-T,"$library/user.ld" \
    -Wl,--build-id=none,-z,noexecstack,-z,max-page-size=4 -o "$folder/forks" \
    "$library/entry.S" "$library/service.c" "$here/bench/forks.c" || exit 1
echo 1000000000 >"$folder/endless"
for loop in $loops; do image "$loop"; done
# shellcheck disable=SC2086 # the loops are words
(cd "$folder" && "$program" mkfs disk 64 forks start $loops) 2>/dev/null || exit 1
TIMEFORMAT='%U %S'

# measure NAME NOTE WORD ..: a run by these words, whose note is of this pattern. Its name, steps and seconds go to `measured`.
measure() {
    local name=$1 pattern=$2 note
    shift 2
    { time "$program" "$@" </dev/null >/dev/null 2>"$folder/note"; } 2>"$folder/took"
    note=$(cat "$folder/note")
    # shellcheck disable=SC2053 # a pattern
    if [[ $note != $pattern ]]; then
        echo "forks.sh: $*: $note" >&2
        exit 1
    fi
    echo "$name $note $(cat "$folder/took")" | awk '{ name = $1; sub(".* steps ", ""); print name, $1, $(NF - 1) + $NF }' >>"$folder/measured"
}

# What is made of forks.c by its words: they copy so many pages, in turns without an end, and with few frames, so that the run
# starts fast.

# timed NAME COPIES WORD ..
timed() {
    local name=$1 copies=$2
    shift 2
    measure "$name" "done steps * refused 0 upcalls $copies" run --frames 4096 --schedule "$folder/endless" -- "$folder/disk" forks "$@"
}

# counted NAME COPIES WORD ..: the machine instructions go to `counted`
counted() {
    local name=$1
    shift 2
    valgrind --tool=callgrind --callgrind-out-file=/dev/null "$program" run --frames 4096 --schedule "$folder/endless" \
        -- "$folder/disk" forks "$@" 2>&1 >/dev/null </dev/null | awk -v name="$name" '/Collected :/ { print name, $4 }' >>"$folder/counted"
}

# forks timed|counted CHILDREN PAGES: the runs of so many children, and those that copy so many pages. A number of children always
# has four digits, so that it takes as many steps to read it.
forks() {
    local by=$1 children pages
    children=$(printf %04d "$2")
    for pages in 1 16 256; do
        $by "none$pages" 0 0000 "$pages" 0 0 0
        $by "all$pages" 0 "$children" "$pages" 0 0 0
    done
    $by none-behind 2 0000 1 0 0 1
    $by all-behind 2 "$children" 1 0 0 1

    # one child: whoever has copied a page has a table more, in which the next fork looks at each page number
    $by unwritten 0 0001 "$3" 0 0 0
    $by child-once "$3" 0001 "$3" 1 0 0
    $by child-twice "$3" 0001 "$3" 2 0 0
    $by parent-once "$3" 0001 "$3" 0 1 0
    $by parent-twice "$3" 0001 "$3" 0 2 0
}

for ((round = 0; round < count; round++)); do
    forks timed 500 1024
    measure none 'done steps * refused 0 upcalls 0' run -- "$folder/disk" forks 0000 1 0 0 0
    measure thousand 'done steps * refused 0 upcalls 0' run -- "$folder/disk" forks 1000 1 0 0 0

    # `start` ends at once, under `run` by trap 13
    measure exo-start 'done steps *' exo "$folder/start"
    measure run-start 'done steps *' run "$folder/disk" start
    for loop in $loops; do
        measure "exo-$loop" "budget steps $steps *" exo --steps "$steps" "$folder/$loop"
        measure "run-$loop" "budget steps $steps *" run --steps "$steps" "$folder/disk" "$loop"
    done
done
: >"$folder/counted"
if command -v valgrind >/dev/null; then
    forks counted 20 64
fi

awk -v loops="$loops" -v steps="$steps" '
    function tell(title, steps, seconds, instructions) {
        printf "%-30s %9g steps %9.0f ns", title, steps, seconds * 1e9
        if (instructions > 0) printf " %9.0f machine instructions", instructions
        print ""
    }
    function fork(title, less, more) {
        tell(title, (made[more] - made[less]) / 500, (least[more] - least[less]) / 500, (machine[more] - machine[less]) / 20)
    }
    function copied(by,    once, twice) {
        once = by "-once"
        twice = by "-twice"
        tell("a copied page, by the " by, (2 * made[once] - made["unwritten"] - made[twice]) / 1024,
            (2 * least[once] - least["unwritten"] - least[twice]) / 1024,
            (2 * machine[once] - machine["unwritten"] - machine[twice]) / 64)
    }
    function whole(title, steps, seconds) {
        printf "%-30s %9d steps %9.3f s\n", title, steps, seconds
    }
    NF == 2 { machine[$1] = $2 }
    NF == 3 {
        made[$1] = $2
        if (!($1 in least) || $3 < least[$1]) least[$1] = $3
    }
    END {
        fork("a fork, 1 page", "none1", "all1")
        fork("a fork, 16 pages", "none16", "all16")
        fork("a fork, 256 pages", "none256", "all256")
        fork("a fork, 1 page, behind a copy", "none-behind", "all-behind")
        copied("child")
        copied("parent")
        whole("1,000 forks, turns of 1,000", made["thousand"] - made["none"], least["thousand"] - least["none"])
        whole("the run that makes them", made["thousand"], least["thousand"])
        whole("a run that makes none", made["none"], least["none"])
        words = split(loops, names, " ")
        for (k = 1; k <= words; k++) {
            exo = least["exo-" names[k]] - least["exo-start"]
            run = least["run-" names[k]] - least["run-start"]
            printf "%-9s %d steps: exo %6.3f s, run %6.3f s, %.2f times\n", names[k], steps, exo, run, run / exo
        }
    }' "$folder/measured" "$folder/counted"
