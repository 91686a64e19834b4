#!/bin/sh
# Tries all edits that a check must refuse: those in must-fail/ of a crate, which `rt ci` tries too, and those in
# more-edits/, which nothing else tries. It works in a copy of the checkout and writes nothing here. Of each edit that
# was not refused, that could not be tried, or whose refusal says little, it prints what rt says; the last line is
# 'N passed, M failed', and the exit status is 1 where one failed. An edit takes some 25 seconds of a processor, all of
# them two hours; one that an earlier run on this machine tried is not tried again where nothing changed that it stands
# on. RT_JOBS says how many are tried side by side: as many as there are processors where it is not set.
#
#     sh bench/edits.sh [NAME ..]      # the crates of these names, in this order; all crates where there is none

LC_ALL=C
export LC_ALL
here=$(CDPATH='' cd -- "$(dirname -- "$0")/.." && pwd -P)
folder=$(mktemp -d) || exit 1
trap 'rm -rf "$folder"' EXIT
trap 'exit 130' HUP INT TERM

every=$(sed -n 's/^\([a-z0-9_]*\)[ :].*/\1/p' "$here/crates.txt")
[ "$#" -gt 0 ] || set -- $every
for name in "$@"; do
    if ! echo "$every" | grep -qx -e "$name"; then
        echo "edits.sh: crates.txt has no crate $name" >&2
        exit 2
    fi
done

(cd "$here" && tar -cf - --exclude='crates/*/out' crates.txt HANDLES crates) | tar -xf - -C "$folder" || exit 1
cd "$folder" || exit 1

passed=0
failed=0
for name in "$@"; do
    edits=crates/$name/must-fail
    mkdir -p "$edits"
    of_crate=0
    for edit in "$edits"/*.edit "crates/$name"/more-edits/*.edit; do
        [ -e "$edit" ] || continue
        of_crate=$((of_crate + 1))
        case $edit in
            */more-edits/*)
                if [ -e "$edits/${edit##*/}" ]; then
                    echo "$name/${edit##*/}: another edit has this name"
                else
                    mv "$edit" "$edits"
                fi
                ;;
        esac
    done
    [ "$of_crate" -gt 0 ] || continue
    rt must-fail "$name" </dev/null >said 2>&1
    refused=$(grep -c '^rt: must-fail [^:]*: refused, as it must be' said)
    if grep -q '^rt: must-fail ' said; then
        # the lines that follow one on an edit belong to it
        awk '/^rt: / { told = /BAD EDIT/ || /^rt: must-fail / && !/: refused, as it must be(:|$)/ } told' said
    else
        # nothing was tried
        tail -n 20 said
    fi
    echo "$name: $refused of $of_crate refused"
    passed=$((passed + refused))
    failed=$((failed + of_crate - refused))
done
echo "$passed passed, $failed failed"
[ "$failed" -eq 0 ]
