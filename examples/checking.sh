# What the checks of this folder, of library/, of disk/ and of commands/ have in common: they make the runs of their table. All but
# the last build their images again, too. One who sources this has set
#
#     examples   this folder
#     here       the folder of the check, with table, and where it has images consoles, programs, bin and Makefile
#     folder     its name, as messages have it
#
# and for check_table and check_images has defined
#
#     names      of first columns of the table on standard input: the names of the programs in them, one a line
#     run        of the columns of a line: makes its runs

jos=$examples/../jos
passed=0
failed=0

say() {
    printf 'check: %s\n' "$1"
}

fail() {
    say "FAILED: $1"
    failed=$((failed + 1))
}

finish() {
    echo "$passed passed, $failed failed"
    [ "$failed" = 0 ]
    exit
}

# Looks for a built ./jos. Where it was built of other sources it is built anew first, and says so; without words its note
# is the usage.
begin() {
    if ! [ -x "$examples/../out/jos" ]; then
        fail 'there is no built ./jos; start ./jos once, which builds it'
        finish
    fi
    "$jos" </dev/null 2>&1 >/dev/null | grep -v '^usage: '
    make_scratch
}

make_scratch() {
    scratch=$(mktemp -d) || exit 1
    trap 'rm -rf "$scratch"' EXIT
}

# make_run INPUT CONSOLE WORD..: makes a run by these words of $jos, with its console in a file; its notes are left in
# $scratch/notes, and its exit status in $got
make_run() {
    input=$1 output=$2
    shift 2
    "$jos" "$@" <"$input" >"$output" 2>"$scratch/notes"
    got=$?
}

# has_image NAME TITLE
has_image() {
    [ -f "$here/bin/$1" ] && return
    fail "$2: there is no image $folder/bin/$1 (make -C $folder builds it)"
    return 1
}

# is_only_note NOTE: whether the notes are one line, and it is the one wanted, an expression of grep -E
is_only_note() {
    [ $(($(wc -l <"$scratch/notes"))) = 1 ] && [ "$(grep -c '' "$scratch/notes")" = 1 ] && grep -qxE -e "$1" "$scratch/notes"
}

# compare TITLE CONSOLE NOTE STATUS INPUT WORD..: makes a run by these words of $jos, and compares its console with that
# of consoles/, its notes with the only one wanted, an expression of grep -E, and its exit status
compare() {
    title=$1 wanted=$here/consoles/$2 note=$3 status=$4 input=$5
    shift 5
    if ! [ -f "$wanted" ]; then
        fail "$title: there is no file $folder/consoles/${wanted##*/}"
        return
    fi
    make_run "$input" "$scratch/console" "$@"
    if ! cmp -s "$scratch/console" "$wanted"; then
        fail "$title: the console is not $folder/consoles/${wanted##*/}:"
        diff -a "$wanted" "$scratch/console" | head -n 20
    elif ! is_only_note "$note" || [ "$got" != "$status" ]; then
        fail "$title: it should end '$note' with status $status, and has status $got and the notes: $(cat "$scratch/notes")"
    else
        passed=$((passed + 1))
    fi
}

is_in_table() {
    grep -v '^#' "$here/table" | cut -d' ' -f1 | names | grep -qxF -e "$1"
}

# Makes the runs of the table, or those of the programs that are named.
check_table() {
    for name in "$@"; do
        is_in_table "$name" || fail "no line of $folder/table runs $name"
    done
    while read -r first rest; do
        case $first in
            '' | '#'*) continue ;;
        esac
        wanted=$#
        for name in "$@"; do
            echo "$first" | names | grep -qxF -e "$name" && wanted=0
        done
        # shellcheck disable=SC2086 # the rest of a line is words
        [ "$wanted" != 0 ] || run "$first" $rest
    done <"$here/table"
}

# Builds all images elsewhere, and compares them; and looks for programs that are not run.
check_images() {
    for source in "$here"/programs/*.c; do
        name=$(basename "$source" .c)
        is_in_table "$name" || fail "no line of $folder/table runs $name"
    done
    if ! make -s -C "$here" stated >/dev/null 2>&1; then
        say 'the images were not built again: this is not the gcc and the ld of examples/images.mk'
        return
    fi
    if ! make -s -C "$here" BIN="$scratch/bin" OBJ="$scratch/obj" >"$scratch/log" 2>&1; then
        fail "make -C $folder:"
        cat "$scratch/log"
        return
    fi
    for image in "$scratch/bin"/*; do
        if cmp -s "$image" "$here/bin/${image##*/}"; then
            passed=$((passed + 1))
        else
            fail "$folder/bin/${image##*/} is not what make -C $folder builds of programs/${image##*/}.c"
        fi
    done
}

# bytes of instructions that the machine has not (docs/programs.md)
outside='66 (?!90)|2[6e] |3[6e] |6[457] |9b |d[89a-f] |f0 |f[23] 0f|0f (?!8|9|a[45cdf]|b[67ef])'

check_instructions() {
    if ! command -v objdump >/dev/null; then
        say 'the instructions were not looked at: there is no objdump'
        return
    fi
    for image in "$here"/bin/*; do
        if objdump -d "$image" | grep -P "\t($outside)"; then
            fail "$folder/bin/${image##*/} has the instructions above, which the machine has not"
        else
            passed=$((passed + 1))
        fi
    done
}
