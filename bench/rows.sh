#!/bin/sh
# Counts the machine instructions that the simulator takes for each row of the instruction table, by callgrind, which
# counts them exactly, and prints the ten dearest rows. Of a row it prints what a step of it takes, and what a step
# takes on average where a jump follows it. A run has 1,000,000 steps; what it takes to start is taken off. Rows in
# memory reach a page whose bytes are at hand. It runs as many counts side by side as there are processors.
#
#     sh bench/rows.sh [all]        # with `all` it prints each row

runs=1
if ! command -v valgrind >/dev/null; then
    echo 'rows.sh: valgrind is not installed' >&2
    exit 2
fi
. "$(dirname -- "$0")/jos.sh"

# Of each row: its name, what is done once before the loop, the loop without the jump that ends it, and the rows that
# stand in the loop beside it. Code begins at 0x00800054; words at 0x00800800 and 0xeebfdf00 are there to be used.
cat >"$folder/rows" <<'END'
jmp_rel8|||
lea||8d 64 24 00|
mov_r32_imm32||b8 01 00 00 00|
mov_rm32_r32_register||89 c2|
mov_rm32_r32_memory||89 05 00 08 80 00|
mov_r32_rm32_register||8b c2|
mov_r32_rm32_memory||8b 05 00 08 80 00|
mov_rm32_imm32_memory||c7 05 00 08 80 00 01 00 00 00|
mov_rm32_imm32_register||c7 c0 01 00 00 00|
mov_eax_addr||a1 00 08 80 00|
mov_addr_eax||a3 00 08 80 00|
mov_rm8_r8_register||88 c2|
mov_rm8_r8_memory||88 05 00 08 80 00|
mov_r8_rm8_register||8a c2|
mov_r8_rm8_memory||8a 05 00 08 80 00|
mov_r8_imm8||b0 01|
mov_rm8_imm8_register||c6 c0 01|
mov_rm8_imm8_memory||c6 05 00 08 80 00 01|
mov_al_addr||a0 00 08 80 00|
mov_addr_al||a2 00 08 80 00|
movzx_rm8_register||0f b6 c1|
movzx_rm8_memory||0f b6 05 00 08 80 00|
movzx_rm16_register||0f b7 c1|
movzx_rm16_memory||0f b7 05 00 08 80 00|
movsx_rm8_register||0f be c1|
movsx_rm8_memory||0f be 05 00 08 80 00|
movsx_rm16_register||0f bf c1|
movsx_rm16_memory||0f bf 05 00 08 80 00|
xchg_rm8_r8_register||86 c2|
xchg_rm8_r8_memory||86 05 00 08 80 00|
xchg_rm32_r32_register||87 c2|
xchg_rm32_r32_memory||87 05 00 08 80 00|
xchg_eax_r32||91|
cwde||98|
cdq||99|
inc_r32||40|
dec_r32||48|
inc_rm8_register||fe c0|
inc_rm8_memory||fe 05 00 08 80 00|
dec_rm8_memory||fe 0d 00 08 80 00|
inc_rm32_register||ff c0|
inc_rm32_memory||ff 05 00 08 80 00|
dec_rm32_memory||ff 0d 00 08 80 00|
push_r32||50 8d 64 24 04|lea
push_imm8||6a 01 8d 64 24 04|lea
push_imm32||68 01 00 00 00 8d 64 24 04|lea
push_rm32_memory||ff 35 00 08 80 00 8d 64 24 04|lea
push_rm32_register||ff f0 8d 64 24 04|lea
pop_r32|8d 64 24 c0|58 8d 64 24 fc|lea
pop_rm32_memory|8d 64 24 c0|8f 05 00 08 80 00 8d 64 24 fc|lea
pop_rm32_register|8d 64 24 c0|8f c0 8d 64 24 fc|lea
pusha||60 8d 64 24 20|lea
popa|8d a4 24 00 ff ff ff|61 8d 64 24 e0|lea
pushf||9c 8d 64 24 04|lea
popf|8d 64 24 c0|9d 8d 64 24 fc|lea
leave|c7 05 00 df bf ee 00 df bf ee bd 00 df bf ee|c9|
add_rm32_r32_register||01 c2|
add_rm32_r32_memory||01 05 00 08 80 00|
adc_rm32_r32_register||11 c2|
sbb_rm32_r32_register||19 c2|
cmp_rm32_r32_memory||39 05 00 08 80 00|
add_r32_rm32_register||03 c2|
add_r32_rm32_memory||03 05 00 08 80 00|
add_rm32_imm32_register||81 c0 01 00 00 00|
add_rm32_imm32_memory||81 05 00 08 80 00 01 00 00 00|
add_rm32_imm8_register||83 c0 01|
add_rm32_imm8_memory||83 05 00 08 80 00 01|
add_eax_imm32||05 01 00 00 00|
add_rm8_r8_register||00 c2|
add_rm8_r8_memory||00 05 00 08 80 00|
add_r8_rm8_register||02 c2|
add_r8_rm8_memory||02 05 00 08 80 00|
add_rm8_imm8_register||80 c0 01|
add_rm8_imm8_memory||80 05 00 08 80 00 01|
add_al_imm8||04 01|
test_rm8_r8_register||84 c2|
test_rm8_r8_memory||84 05 00 08 80 00|
test_rm32_r32_register||85 c2|
test_rm32_r32_memory||85 05 00 08 80 00|
test_al_imm8||a8 01|
test_eax_imm32||a9 01 00 00 00|
test_rm8_imm8_register||f6 c1 01|
test_rm8_imm8_memory||f6 05 00 08 80 00 01|
test_rm32_imm32_register||f7 c1 01 00 00 00|
test_rm32_imm32_memory||f7 05 00 08 80 00 01 00 00 00|
not_rm8_register||f6 d0|
not_rm8_memory||f6 15 00 08 80 00|
not_rm32_register||f7 d0|
not_rm32_memory||f7 15 00 08 80 00|
neg_rm8_register||f6 d8|
neg_rm8_memory||f6 1d 00 08 80 00|
neg_rm32_register||f7 d8|
neg_rm32_memory||f7 1d 00 08 80 00|
mul_rm8_register||f6 e1|
mul_rm8_memory||f6 25 00 08 80 00|
mul_rm32_register||f7 e1|
mul_rm32_memory||f7 25 00 08 80 00|
imul_rm8_register||f6 e9|
imul_rm32_register||f7 e9|
imul_rm32_memory||f7 2d 00 08 80 00|
imul_r32_rm32_register||0f af c1|
imul_r32_rm32_memory||0f af 05 00 08 80 00|
imul_r32_rm32_imm8||6b c1 05|
imul_r32_rm32_imm32||69 c1 05 00 00 00|
div_rm8_register|b1 03|f6 f1|
div_rm32_register|b9 03 00 00 00|f7 f1|
div_rm32_memory|c7 05 00 08 80 00 03 00 00 00|f7 35 00 08 80 00|
idiv_rm8_register|b1 03|f6 f9|
idiv_rm32_register|b9 03 00 00 00|f7 f9|
idiv_rm32_memory|c7 05 00 08 80 00 03 00 00 00|f7 3d 00 08 80 00|
setcc_register||0f 94 c0|
setcc_memory||0f 94 05 00 08 80 00|
rol_rm8_imm8_by_31||c0 c0 1f|
ror_rm8_imm8_by_31||c0 c8 1f|
shl_rm8_imm8_by_31||c0 e0 1f|
rol_rm32_imm8_by_31||c1 c0 1f|
ror_rm32_imm8_by_31||c1 c8 1f|
shl_rm32_imm8_by_5||c1 e0 05|
shl_rm32_imm8_by_31||c1 e0 1f|
shr_rm32_imm8_by_31||c1 e8 1f|
sar_rm32_imm8_by_31||c1 f8 1f|
shl_rm32_imm8_memory_by_31||c1 25 00 08 80 00 1f|
shl_rm8_one||d0 e0|
shl_rm32_one||d1 e0|
shl_rm32_one_memory||d1 25 00 08 80 00|
shl_rm8_cl_by_31|b1 1f|d2 e0|
ror_rm32_cl_by_31|b1 1f|d3 c8|
sar_rm32_cl_by_31|b1 1f|d3 f8|
sar_rm32_cl_memory_by_31|b1 1f|d3 3d 00 08 80 00|
shld_imm8_by_31||0f a4 c2 1f|
shld_cl_by_31|b1 1f|0f a5 c2|
shld_cl_memory_by_31|b1 1f|0f a5 05 00 08 80 00|
shrd_imm8_by_31||0f ac c2 1f|
shrd_cl_by_31|b1 1f|0f ad c2|
shrd_cl_memory_by_31|b1 1f|0f ad 05 00 08 80 00|
jmp_rel32||e9 00 00 00 00|
jmp_rm32_register|b8 5b 00 80 00|ff e0|
jmp_rm32_memory|c7 05 00 08 80 00 64 00 80 00|ff 25 00 08 80 00|
jcc_rel8_not_taken||75 00|
jcc_rel8_taken||74 00|
jcc_rel32||0f 84 00 00 00 00|
call_rel32||e8 00 00 00 00 8d 64 24 04|lea
call_rm32_register|b8 5b 00 80 00|ff d0 8d 64 24 04|lea
call_rm32_memory|c7 05 00 08 80 00 64 00 80 00|ff 15 00 08 80 00 8d 64 24 04|lea
ret||68 5a 00 80 00 c3|push_imm32
ret_imm16||68 5c 00 80 00 c2 00 00|push_imm32
movsb|be 00 08 80 00 bf 00 09 80 00|a4 bf 00 09 80 00 be 00 08 80 00|mov_r32_imm32 mov_r32_imm32
movsd||a5 bf 00 09 80 00 be 00 08 80 00|mov_r32_imm32 mov_r32_imm32
cmpsb||a6 bf 00 09 80 00 be 00 08 80 00|mov_r32_imm32 mov_r32_imm32
cmpsd||a7 bf 00 09 80 00 be 00 08 80 00|mov_r32_imm32 mov_r32_imm32
stosb||aa bf 00 09 80 00|mov_r32_imm32
stosd||ab bf 00 09 80 00|mov_r32_imm32
lodsb||ac be 00 08 80 00|mov_r32_imm32
lodsd||ad be 00 08 80 00|mov_r32_imm32
scasb||ae bf 00 09 80 00|mov_r32_imm32
scasd||af bf 00 09 80 00|mov_r32_imm32
cmc||f5|
clc||f8|
cld||fc|
nop||90|
END
# strings begin where the others end: at words that are there
sed -i 's/^\(movsd\|cmpsb\|cmpsd\)||/\1|be 00 08 80 00 bf 00 09 80 00|/; s/^\(stosb\|stosd\|scasb\|scasd\)||/\1|bf 00 09 80 00|/; s/^\(lodsb\|lodsd\)||/\1|be 00 08 80 00|/' "$folder/rows"

# loop_code NAME: its bytes, with the jump back
loop_code() {
    grep "^$1|" "$folder/rows" | {
        IFS='|' read -r _ once loop _
        # each word is a byte
        set -- $loop
        echo "$once $loop eb $(printf '%02x' $((254 - $#)))"
    }
}

# counted PROGRAM: the machine instructions of a run
counted() {
    valgrind --tool=callgrind --callgrind-out-file=/dev/null "$program" exo --steps 1000000 "$1" 2>&1 >/dev/null </dev/null |
        awk '/Collected :/ { print $4 }'
}

while IFS='|' read -r name _; do
    # shellcheck disable=SC2046
    image_of "$name" $(loop_code "$name")
done <"$folder/rows"
started=$(counted "$folder/start")
export program folder
cut -d'|' -f1 "$folder/rows" | xargs -P "$(nproc)" -I{} sh -c '
    valgrind --tool=callgrind --callgrind-out-file=/dev/null "$program" exo --steps 1000000 "$folder/{}" 2>"$folder/{}.note" >/dev/null </dev/null
    awk "/Collected :/ { print \$4 }" "$folder/{}.note" >"$folder/{}.count"'

while IFS='|' read -r name once loop beside; do
    note=$(grep -v '^==' "$folder/$name.note")
    case $note in
        'budget steps 1000000 '*) ;;
        *) echo "$name: $note" >&2 && exit 1 ;;
    esac
    echo "$name $(cat "$folder/$name.count") $beside"
done <"$folder/rows" | awk -v started="$started" '
    {
        step = ($2 - started) / 1000000
        # steps of the loop: the row, those beside it, and the jump
        if ($1 == "jmp_rel8") { own = step } else { own = step * (NF - 2 + 2) - cost["jmp_rel8"] }
        for (k = 3; k <= NF; k++) own -= cost[$k]
        cost[$1] = own
        printf "%-28s %7.0f a step, %5.0f with a jump\n", $1, own, (own + cost["jmp_rel8"]) / 2
    }' >"$folder/costs"
if [ "$1" = all ]; then
    cat "$folder/costs"
else
    sort -k5 -n -r "$folder/costs" | head -10
fi
