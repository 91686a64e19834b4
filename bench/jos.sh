# What the scripts here share, to be sourced with `runs` set: the loops, and how fast the simulator makes their
# steps. A run has so many million steps; what it takes to start is measured by a program that ends at once, and
# taken off.

LC_ALL=C
export LC_ALL
here=$(CDPATH='' cd -- "$(dirname -- "$0")/.." && pwd -P)
program=$here/out/jos
folder=$(mktemp -d) || exit 1
trap 'rm -rf "$folder"' EXIT

bytes() {
    for byte in "$@"; do printf "\\$(printf %o "0x$byte")"; done
}

loops='sums memory calls strings branches'

# the bytes of a program, which stand at 0x00800054
code_of() {
    case $1 in
        # env_destroy(0)
        start) echo b8 03 00 00 00 ba 00 00 00 00 cd 30 ;;
        # add eax,ebx; add eax,edx; mov edx,eax; jmp
        sums) echo 01 d8 01 d0 89 c2 eb f8 ;;
        # mov eax,[0x800800]; add eax,1; mov [0x800800],eax; jmp
        memory) echo a1 00 08 80 00 05 01 00 00 00 a3 00 08 80 00 eb ef ;;
        # call; jmp; ret
        calls) echo e8 02 00 00 00 eb f9 c3 ;;
        # mov ecx,512; mov edi,0x800800; mov esi,0x800400; rep movsb; jmp
        strings) echo b9 00 02 00 00 bf 00 08 80 00 be 00 04 80 00 f3 a4 eb ed ;;
        # inc ecx; test cl,1; jz and jnz to the next; jmp
        branches) echo 41 f6 c1 01 74 00 75 00 eb f6 ;;
    esac
}

# image NAME: the program of that name as a file
image() {
    # each word is a byte
    image_of "$1" $(code_of "$1")
}

# image_of NAME BYTE ..: an ELF file of these bytes of code, whose one segment, the whole file at 0x00800000, has a
# page that may be written, and that starts behind its headers
image_of() {
    name=$1
    shift
    len=$(printf '%02x' $((84 + $#)))
    {
        bytes 7f 45 4c 46 01 01 01 00 00 00 00 00 00 00 00 00 02 00 03 00 01 00 00 00 54 00 80 00
        bytes 34 00 00 00 00 00 00 00 00 00 00 00 34 00 20 00 01 00 00 00 00 00 00 00
        bytes 01 00 00 00 00 00 00 00 00 00 80 00 00 00 80 00 "$len" 00 00 00 "$len" 00 00 00 07 00 00 00 00 10 00 00
        bytes "$@"
    } >"$folder/$name"
}

# compile NAME LEVEL: the program programs/NAME.c as a file, of one segment in one page
compile() {
    gcc -m32 -march=i386 "$2" -ffreestanding -fno-pic -no-pie -nostdlib -static -fno-stack-protector \
        -fno-asynchronous-unwind-tables -fcf-protection=none -mno-sse -Wl,-T,"$here/bench/programs/one-page.ld" \
        -Wl,--build-id=none,-z,noexecstack,--no-warn-rwx-segments -o "$folder/$1" "$here/bench/programs/$1.c"
}

now() {
    date +%s.%N
}

steps=$((runs * 1000000))

# copies NAME COUNT: the name so many times, each in the folder
copies() {
    k=0
    while [ "$k" -lt "$2" ]; do
        echo "$folder/$1"
        k=$((k + 1))
    done
}

# took WORD ..: the seconds of a run
took() {
    begin=$(now)
    "$program" exo --steps "$steps" "$@" </dev/null 2>"$folder/note" >/dev/null
    echo "$begin $(now)" | awk '{ print $2 - $1 }'
}

# the seconds that the program in a file takes for its steps
seconds_of() {
    took "$folder/$1"
}

# the same of a loop
jos_seconds() {
    image "$1"
    seconds_of "$1"
}

# the million steps a second of the program in a file
speed_of() {
    took=$(seconds_of "$1")
    case $(cat "$folder/note") in
        "budget steps $steps "*) ;;
        *) echo "$1: $(cat "$folder/note")" >&2 && return 1 ;;
    esac
    echo "$runs $took $jos_start" | awk '{ print $1 / ($2 - $3) }'
}

# and of a loop
jos_speed() {
    image "$1"
    speed_of "$1"
}

# the first run builds the program where it is not there
image start
"$here/jos" exo "$folder/start" </dev/null || exit 1
jos_start=$(jos_seconds start)
