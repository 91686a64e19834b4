#!/bin/sh
# Measures the simulator beside Bochs, which must be installed: the five loops of loops.sh, byte for byte, each for
# MILLIONS million instructions (100 without a word, 4000 at most), by the one and then by the other. It prints the
# million instructions a second of each, and how many times as fast the simulator is. Of a repeated instruction each
# repetition counts as one, in both.
#
#     sh bench/bochs.sh [MILLIONS]
#
# Bochs starts from a disk. Its first sector enters protected mode, without paging, puts the loop where the
# simulator has it, sets the timer of the local APIC and jumps to the loop. In Bochs this timer counts instructions;
# its interrupt ends Bochs by the port 8900. What it takes to come to the loop is measured with a count of 1, and
# taken off. Both keep what they have decoded. Where Bochs is built with its debugger, as Debian's is, it is slower
# than it could be.

runs=${1:-100}
if ! command -v bochs >/dev/null; then
    echo 'bochs.sh: bochs is not installed' >&2
    exit 2
fi
. "$(dirname -- "$0")/jos.sh"

# word N: four bytes, the lowest first
word() {
    bytes $(printf '%02x %02x %02x %02x' $(($1 % 256)) $(($1 / 256 % 256)) $(($1 / 65536 % 256)) $(($1 / 16777216)))
}

# disk LOOP COUNT
disk() {
    {
        # 7c00, 16 bits: cli; xor ax,ax; mov ds,ax; lgdt [7c90]; lidt [7ca8]; or cr0,1; jmp 8:7c1c
        bytes fa 31 c0 8e d8 0f 01 16 90 7c 0f 01 1e a8 7c 0f 20 c0 0c 01 0f 22 c0 ea 1c 7c 08 00
        # 7c1c, 32 bits: ds, es and ss are 10; esp is 900000; 64 bytes go from 7cb8 to 800054
        bytes 66 b8 10 00 8e d8 8e c0 8e d0 bc 00 00 90 00 be b8 7c 00 00 bf 54 00 80 00 b9 40 00 00 00 f3 a4
        # no interrupt but the timer's: out 21,ff; out a1,ff
        bytes b0 ff e6 21 e6 a1
        # the APIC is on; its timer counts by one, once, and has interrupt 20; the count; sti; jmp 800054
        bytes c7 05 f0 00 e0 fe ff 01 00 00 c7 05 e0 03 e0 fe 0b 00 00 00 c7 05 20 03 e0 fe 20 00 00 00
        bytes c7 05 80 03 e0 fe
        word "$2"
        bytes fb e9 e4 83 7f 00
        # 7c70, interrupt 20: the eight bytes at 7c83, which are "Shutdown", go to the port; hlt; jmp to it
        bytes be 83 7c 00 00 b9 08 00 00 00 66 ba 00 89 f3 6e f4 eb fd 53 68 75 74 64 6f 77 6e 00 00 00 00 00
        # 7c90: the segments 8 and 10, flat code and data, behind the table's own length and address
        bytes 17 00 90 7c 00 00 00 00 ff ff 00 00 00 9a cf 00 ff ff 00 00 00 92 cf 00
        # 7ca8: the length and address of the interrupt table, and the gate of interrupt 20
        bytes 07 01 b0 7b 00 00 00 00 70 7c 08 00 00 8e 00 00
        # 7cb8
        bytes $(code_of "$1")
    } >"$folder/disk"
    truncate -s 510 "$folder/disk"
    bytes 55 aa >>"$folder/disk"
    truncate -s 1474560 "$folder/disk"
}

configure() {
    cat >"$folder/bochsrc" <<END
memory: guest=32, host=32
floppya: 1_44=$folder/disk, status=inserted
boot: floppy
log: $folder/log
panic: action=fatal
display_library: $1
clock: sync=none
cpu: count=1, ips=10000000, reset_on_triple_fault=0
END
}

# run_bochs SECONDS: whether Bochs is ended by the port within them. Its debugger, where it has one, waits for a c.
run_bochs() {
    rm -f "$folder/log"
    echo c | timeout "$1" bochs -q -f "$folder/bochsrc" >/dev/null 2>&1
    grep -q 'shutdown requested' "$folder/log" 2>/dev/null
}

# bochs_seconds LOOP COUNT
bochs_seconds() {
    disk "$1" "$2"
    begin=$(now)
    run_bochs 600 || return 1
    echo "$begin $(now)" | awk '{ print $2 - $1 }'
}

# a display that needs no screen
found=
disk sums 1
for display in nogui 'rfb, options="timeout=0"' term; do
    configure "$display"
    if run_bochs 30; then
        found=$display
        break
    fi
done
if [ -z "$found" ]; then
    echo 'bochs.sh: bochs does not come to the loop' >&2
    exit 2
fi

for loop in $loops; do
    jos=$(jos_speed "$loop") || exit 1
    before=$(bochs_seconds "$loop" 1) && took=$(bochs_seconds "$loop" $((runs * 1000000))) || exit 1
    echo "$loop $jos $runs $took $before" |
        awk '{ bochs = $3 / ($4 - $5); printf "%-9s jos %6.1f, bochs %6.1f million instructions a second, ratio %.2f\n", $1, $2, bochs, $2 / bochs }'
done
