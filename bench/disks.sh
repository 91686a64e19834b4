#!/bin/sh
# Measures disks: the greatest, of 16,384 blocks, is made of files that fill it, listed, which checks all of it, and its
# largest file is printed. It prints the megabytes a second of each beside those of `cp` of the same bytes, the best of
# RUNS runs (5 without a word), and the most memory that each took. The same of a disk of directories in one another, and of
# one with a directory of 16,544 records, which only a check is slow at that looks at each record more than a few times.
#
#     sh bench/disks.sh [RUNS]

runs=${1:-5}
LC_ALL=C
export LC_ALL
here=$(CDPATH='' cd -- "$(dirname -- "$0")/.." && pwd -P)
program=$here/out/jos
folder=$(mktemp -d) || exit 1
trap 'rm -rf "$folder"' EXIT
"$here/jos" demo xhello "$folder/h" 2>/dev/null || exit 1
cd "$folder" || exit 1

# best WORD ..: the least seconds of so many runs of a command
best() {
    k=0
    while [ "$k" -lt "$runs" ]; do
        begin=$(date +%s.%N)
        "$@" >/dev/null 2>note || { cat note >&2; return 1; }
        echo "$begin $(date +%s.%N)"
        k=$((k + 1))
    done | awk '{ t = $2 - $1; if (NR == 1 || t < least) least = t } END { print least }'
}

# tell TITLE BYTES WORD ..: the speed of a command over so many bytes
tell() {
    title=$1 bytes=$2
    shift 2
    seconds=$(best "$@") || exit 1
    memory=$(/usr/bin/time -f %M "$@" 2>&1 >/dev/null | tail -n 1)
    echo "$seconds $bytes $memory" |
        awk -v title="$title" '{ printf "%-44s %8.3f s %9.1f MB/s %7.1f MB of memory\n", title, $1, $2 / $1 / 1e6, $3 / 1024 }'
}

# fifteen files of the greatest size, and one that takes what is left
largest=4235264
words=
for k in 01 02 03 04 05 06 07 08 09 10 11 12 13 14 15; do
    head -c "$largest" /dev/urandom >"file$k"
    words="$words file$k"
done
# 16,384 blocks less the first three, that of the root, 15 files of 1,035 and an indirect block
head -c $((4096 * (16384 - 4 - 15 * 1035 - 1))) /dev/urandom >rest
size=$((16384 * 4096))

# shellcheck disable=SC2086
tell "mkfs, 16,384 blocks, filled" "$size" "$program" mkfs d 16384 $words rest
tell "ls of it" "$size" "$program" ls d
tell "cat of its largest file" "$largest" "$program" cat d file15
tell "cp of the disk" "$size" cp d copy
tell "cp of the file" "$largest" cp file15 copy

python3 "$here/bench/disks.py" --write deep nested
tell "ls of 8,000 directories in one another" "$size" "$program" ls nested
python3 "$here/bench/disks.py" --write wide records
tell "ls of a directory of 16,544 records" "$size" "$program" ls records
