#!/usr/bin/env bash
# Measures what the merge gate costs, crate by crate, in a copy of the checkout: seconds of the processor and, behind
# a stroke, of the clock, at one job. The table has a line for each crate: its functions; a check from nothing; the same
# with the tests, where there are any, which is a proof of both; an unchanged check, with the number of modules that it
# loads; and the crate's edits, with the check from nothing that they begin with. `rt ci` makes all of these but the
# unchanged check, and each edit is one with a line changed. The last line is the sum of what `rt ci` makes.
#
#     bench/gate.sh [NAME ..]      # these crates alone
#
# A check from nothing is `rt check` in a copy where nothing is kept. Elsewhere it would begin with what other copies of
# the repository have kept on this machine, in a folder beside the toolchain; so the commands that are measured are
# those of a folder of links to the toolchain, in which rt itself is a copy. Edits are tried by `rt must-fail --anew`.
# What the measured crates stand on is built before, from what is kept on the machine where it is. Nothing is written in
# the checkout. It takes as long as the table says, and two or three gigabytes of disk.

LC_ALL=C
export LC_ALL RT_JOBS=1
here=$(CDPATH='' cd -- "$(dirname -- "$0")/.." && pwd -P)
folder=$(mktemp -d) || exit 1
trap 'rm -rf "$folder"' EXIT
trap 'exit 130' HUP INT TERM
repo=$folder/repo

# a line for each crate, behind those of the crates that it stands on: its name, and theirs
chain=$(sed 's/#.*//; s/ staticlib:/:/' "$here/crates.txt" | awk -F: '
    NF > 1 { names[++count] = $1; below[$1] = $2 }
    END {
        do {
            before = done
            for (k = 1; k <= count; k++) {
                if (names[k] in placed) continue
                words = split(below[names[k]], others, " ")
                line = names[k]
                fits = 1
                for (j = 1; j <= words; j++) {
                    if (!(others[j] in below)) continue
                    line = line " " others[j]
                    if (!(others[j] in placed)) fits = 0
                }
                if (fits) { placed[names[k]] = 1; done++; print line }
            }
        } while (done > before)
    }')
every=$(cut -d' ' -f1 <<<"$chain")
for name in "$@"; do
    if ! grep -qx -e "$name" <<<"$every"; then
        echo "gate.sh: crates.txt has no crate $name" >&2
        exit 2
    fi
done
measured=$every
[ "$#" -eq 0 ] || measured=$(printf '%s\n' "$@")
# these and all that they stand on
wanted=$(tac <<<"$chain" | awk -v names="${measured//$'\n'/ }" '
    BEGIN { count = split(names, given, " "); for (k = 1; k <= count; k++) is_wanted[given[k]] = 1 }
    $1 in is_wanted { print $1; for (k = 2; k <= NF; k++) is_wanted[$k] = 1 }' | tac)

mkdir -p "$repo" "$folder/kit/bin"
(cd "$here" && tar -cf - --exclude='crates/*/out' crates.txt HANDLES crates) | tar -xf - -C "$repo" || exit 1
kit=$(dirname "$(dirname "$(realpath "$(command -v rt)")")") || exit 1
for file in "$kit"/* "$kit"/bin/*; do
    case ${file#"$kit/"} in
        bin) ;;
        bin/rt | bin/rtlib.py) cp "$file" "$folder/kit/bin" ;;
        bin/*) ln -s "$file" "$folder/kit/bin" ;;
        *) ln -s "$file" "$folder/kit" ;;
    esac
done
rt=$folder/kit/bin/rt

# took COMMAND ..: makes `used` and `passed`, the seconds of the processor and of the clock; what it says is in the file said
took() {
    local TIMEFORMAT='%R %U %S' status
    { time "$@" </dev/null >"$folder/said" 2>&1; } 2>"$folder/time"
    status=$?
    read -r passed used more <"$folder/time"
    used=$(awk -v a="$used" -v b="$more" 'BEGIN { printf "%.0f", a + b }')
    passed=$(awk -v a="$passed" 'BEGIN { printf "%.0f", a }')
    if [ "$status" -ne 0 ]; then
        echo "gate.sh: $name: $*" >&2
        tail -n 20 "$folder/said" >&2
        exit 1
    fi
}

printf '| Crate | Functions | From nothing | With tests | Unchanged | Modules | Edits | Their time |\n'
printf '|---|---|---|---|---|---|---|---|\n'
sum=0
for name in $wanted; do
    cd "$repo/crates/$name" || exit 1
    is_library=
    [ ! -e src/lib.rt ] || is_library=1
    if ! grep -qx -e "$name" <<<"$measured"; then
        [ -z "$is_library" ] || took rt lib --jobs 1
        continue
    fi
    took "$rt" check --jobs 1
    functions=$(sed -n 's/^logic=proved functions=\([0-9]*\).*/\1/p' "$folder/said")
    sum=$((sum + used))
    whole="$used / $passed"

    tests=
    if grep -rq '^ *#\[test\]' src; then
        mv out/incremental "$folder/aside"
        took "$rt" check --test --jobs 1
        sum=$((sum + used))
        tests="$used / $passed"
        rm -rf out/incremental
        mv "$folder/aside" out/incremental
    fi

    took "$rt" check --jobs 1
    again="$used / $passed"
    modules=$(sed -n 's/^[a-z]* [a-z0-9_]*: modules loaded=\([0-9]*\).*/\1/p' "$folder/said" | awk '{ n += $1 } END { print n }')
    [ -z "$is_library" ] || took "$rt" lib --jobs 1

    edits=$(find must-fail -name '*.edit' 2>/dev/null | wc -l)
    tried=
    if [ "$edits" -gt 0 ]; then
        cd "$repo" || exit 1
        took "$rt" must-fail --anew "$name"
        sum=$((sum + used))
        tried="$used / $passed"
    fi
    # shellcheck disable=SC2016
    printf '| `%s` | %s | %s | %s | %s | %s | %s | %s |\n' "$name" "$functions" "$whole" "$tests" "$again" "$modules" "$edits" "$tried"
done
printf '%d minutes of one processor\n' $((sum / 60))
