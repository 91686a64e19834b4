#!/bin/sh
# Measures what environments, turns and frames cost: the loop `sums` of loops.sh for RUNS million steps (20 without a
# word, and 1,000 at most), alone, in 64 environments, and beside 999 environments that wait, with few frames and with
# many; and for one million steps in turns of one step, since a run has 1,048,576 turns at most. It prints the
# nanoseconds a step. What a run takes to start is measured by programs that end at once, taken off, and printed last,
# with the most memory that each took.
#
#     sh bench/turns.sh [RUNS]

runs=${1:-20}
. "$(dirname -- "$0")/jos.sh"

# mov ebx,999; mov eax,7 (exofork); int 0x30; dec ebx; jnz to the second; and then the loop
image_of forks bb e7 03 00 00 b8 07 00 00 00 cd 30 4b 75 f6 $(code_of sums)
image sums
echo 1 >"$folder/turns"

# cost TITLE MILLIONS NAME COUNT WORD ..: the nanoseconds a step of so many images
cost() {
    title=$1 millions=$2 name=$3 count=$4
    steps=$((millions * 1000000))
    shift 4
    # shellcheck disable=SC2046
    start=$(took "$@" $(copies start "$count")) && whole=$(took "$@" $(copies "$name" "$count")) || exit 1
    case $(cat "$folder/note") in
        "budget steps $steps "*) ;;
        *) echo "$title: $(cat "$folder/note")" >&2 && exit 1 ;;
    esac
    echo "$whole $start $millions" | awk -v title="$title" '{ printf "%-58s %7.1f ns a step\n", title, ($1 - $2) * 1000 / $3 }'
}

# begins TITLE COUNT WORD ..: the time and the most memory of a run that ends at once
begins() {
    title=$1 count=$2
    shift 2
    # shellcheck disable=SC2046
    start=$(took "$@" $(copies start "$count"))
    # shellcheck disable=SC2046
    "$program" exo --steps 1000000000 "$@" $(copies sums "$count") </dev/null >/dev/null 2>&1 &
    sleep 1
    memory=$(awk '/VmHWM/ { print $2 / 1024 }' "/proc/$!/status")
    kill "$!"
    wait "$!" 2>/dev/null
    echo "$start $memory" | awk -v title="$title" '{ printf "%-58s %7.1f ms, %6.1f MiB\n", title, $1 * 1000, $2 }'
}

cost 'one environment' "$runs" sums 1
cost 'one environment, 64 frames' "$runs" sums 1 --frames 64
cost 'one environment, 65,536 frames' "$runs" sums 1 --frames 65536
cost 'one environment, turns of one step' 1 sums 1 --schedule "$folder/turns"
cost 'sixty-four environments' "$runs" sums 64
cost 'sixty-four environments, turns of one step' 1 sums 64 --schedule "$folder/turns"
cost 'one environment beside 999 that wait' "$runs" forks 1
cost 'one environment beside 999 that wait, turns of one step' 1 forks 1 --schedule "$folder/turns"
begins 'start of one image, 64 frames' 1 --frames 64
begins 'start of one image' 1
begins 'start of sixty-four images' 64
begins 'start of one image, 65,536 frames' 1 --frames 65536
