# What ./jos, the gate and the scripts of this folder have in common. One who sources this has set `here`, the top of the
# checkout.

released=$here/release/jos-x86_64-linux
# where rt leaves the program, and what the gate says of it
made=$here/crates/jos/out/jos
made_stamp=$here/crates/jos/out/jos.stamp

# What `find` says or does, by these words, of each of the sources.
sources() (
    cd -- "$here" && find -L crates.txt HANDLES crates/*/src crates/*/specs crates/*/proofs -type f "$@" 2>/dev/null
)

sum() {
    sha256sum | cut -d ' ' -f 1
}

# The checksum of all sources, with their names.
sources_sum() {
    sources -exec sha256sum {} + | LC_ALL=C sort | sum
}

# A stamp is three lines: the checksum of the sources, the kit's line and the checksum of the program that they made.
# stamp SOURCES KIT PROGRAM
stamp() {
    printf '%s\n%s\n%s\n' "$1" "$2" "$(sum <"$3")"
}

# What the text of this folder names: `sources`, `kit` or `program`.
named() {
    sed -n "s/^    $1 //p" "$here/release/README.md" 2>/dev/null
}

# Whether the program of this folder is whole, and of the sources with this checksum.
is_released() {
    [ -x "$released" ] && [ "$1" = "$(named sources)" ] && [ "$(sum <"$released")" = "$(named program)" ]
}

# stripped FROM TO: a program without what only a debugger reads, as the kit's own tool leaves it
stripped() {
    tools=$(mktemp -d) || return
    ln -s "$(dirname "$(rt doc)")/toolchain/bin/clang" "$tools/llvm-strip" && "$tools/llvm-strip" -o "$2" "$1"
    done=$?
    rm -rf "$tools"
    return "$done"
}
