#!/bin/sh
# Measures what calls, upcalls and messages cost: the loops programs/pages.S and programs/upcalls.S for RUNS million
# steps (20 without a word, and 1,000 at most), and programs/messages.S in two environments for five million, since a run
# has 1,048,576 turns at most. It prints the million steps a second of each, those of the same loop of plain
# instructions, and from both the nanoseconds of a call, an upcall or a message with its two turns.
#
#     sh bench/calls.sh [RUNS]

runs=${1:-20}
if ! command -v gcc >/dev/null; then
    echo 'calls.sh: gcc is not installed' >&2
    exit 2
fi
. "$(dirname -- "$0")/jos.sh"

# assemble FILE NAME WORD ..: the program of that name as a file, with these words for gcc
assemble() {
    file=$1 name=$2
    shift 2
    gcc -m32 -march=i386 -no-pie -nostdlib -static "$@" -Wl,-T,"$here/bench/programs/one-page.ld" \
        -Wl,--build-id=none,-z,noexecstack,--no-warn-rwx-segments -o "$folder/$file" "$here/bench/programs/$name.S"
}

# speed FILE MILLIONS COUNT: the million steps a second of a program in so many environments
speed() {
    file=$1 millions=$2 count=$3
    steps=$((millions * 1000000))
    # shellcheck disable=SC2046
    start=$(took $(copies start "$count")) && whole=$(took $(copies "$file" "$count")) || exit 1
    case $(cat "$folder/note") in
        "budget steps $steps "*) ;;
        *) echo "$file: $(cat "$folder/note")" >&2 && exit 1 ;;
    esac
    echo "$whole $start $millions" | awk '{ print $3 / ($1 - $2) }'
}

# compare NAME MILLIONS COUNT STEPS TIMES WHAT: a program in so many environments, which does what is told so many times
# in so many steps
compare() {
    assemble "$1" "$1" && assemble "$1-plain" "$1" -DPLAIN || exit 1
    fast=$(speed "$1-plain" "$2" "$3") && slow=$(speed "$1" "$2" "$3") || exit 1
    echo "$1 $slow $fast $4 $5" | awk -v what="$6" '{
        printf "%-9s %6.1f million steps a second, plain %6.1f, %7.1f ns %s\n", $1, $2, $3, (1000 / $2 - 1000 / $3) * $4 / $5, what
    }'
}

compare pages "$runs" 1 5 2 'a call'
compare upcalls "$runs" 1 4 1 'an upcall'
compare messages 5 2 14 1 'a message'
