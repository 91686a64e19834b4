#!/usr/bin/env python3
"""Compares what instructions do with what stands in their place behind examples/port/widen, on this machine's
processor.

    bench/widen.py [--seed N] [--count N]

It makes random instructions of 16 bits and of those on bits, puts each in a function, and has both functions, the
one as it was made and the one that was widened, called with the same random registers, flags and memory. All
registers, the memory and the flags that are looked at behind it have to be the same. It takes a gcc, and a Linux
that runs programs of 32 bits. The last line is 'N differences'.
"""

import argparse
import os
import random
import subprocess
import sys
import tempfile

TOP = os.path.dirname(os.path.dirname(os.path.abspath(__file__)))
PORT = os.path.join(TOP, "examples", "port")

WORDS = ["%ax", "%bx", "%cx", "%dx", "%si", "%di", "%bp"]
LONGS = ["%eax", "%ebx", "%ecx", "%edx", "%esi", "%edi", "%ebp"]
BYTES = ["%al", "%bh", "%cl", "%dh"]
PLACES = ["places", "2+places", "places+4", "(%esp)", "4(%esp)"]
NUMBERS = ["$0", "$1", "$5", "$255", "$256", "$-1", "$-2", "$32767", "$-32768", "$1000", "$65535"]
CHANGES = ["addw", "subw", "andw", "orw", "xorw"]
SETS = {"C": "setc flags", "Z": "sete flags+1", "S": "sets flags+2", "O": "seto flags+3"}

FLAGS = [
    "-m32", "-march=i386", "-O1", "-w", "-ffreestanding", "-nostdlib", "-fno-pic", "-no-pie", "-static",
    "-fno-stack-protector", "-fcf-protection=none", "-Wl,-z,noexecstack",
]  # fmt: skip

# calls each function of `tests` twelve times, and prints what it left
CALLER = """
typedef unsigned word;
extern word registers[8], left[9], places[3];
extern unsigned char flags[4];
extern void (*const tests[])(void);

static word seed = SEED;

static word next_number(void)
{
    static const word borders[] = {
        0, 1, 0xffff, 0x8000, 0x7fff, 0x10000, 0xffff0000, 0x80008000, 0xffffffff, 0x12345678,
    };

    seed ^= seed << 13;
    seed ^= seed >> 17;
    seed ^= seed << 5;
    return seed % 2 ? seed : borders[seed / 2 % 10];
}

static void print(word value, char end)
{
    char text[9];
    int answer;

    for (int k = 7; k >= 0; k--, value >>= 4)
        text[k] = "0123456789abcdef"[value & 15];
    text[8] = end;
    __asm__ volatile("int $0x80" : "=a"(answer) : "a"(4), "b"(1), "c"(text), "d"(9) : "memory");
}

__attribute__((force_align_arg_pointer)) void _start(void)
{
    for (word k = 0; tests[k]; k++) {
        for (int round = 0; round < 12; round++) {
            for (int j = 0; j < 7; j++)
                registers[j] = next_number();
            registers[7] = 0x202 | (next_number() & 0x8c1);
            for (int j = 0; j < 3; j++)
                places[j] = next_number();
            *(word *)flags = 0;
            tests[k]();
            print(k, ' ');
            for (int j = 0; j < 9; j++)
                print(left[j], ' ');
            for (int j = 0; j < 3; j++)
                print(places[j], ' ');
            print(*(word *)flags, '\\n');
        }
    }
    __asm__ volatile("int $0x80" : : "a"(1), "b"(0));
}
"""

# all registers and flags before it, and all registers behind it; two words are on the stack meanwhile
FUNCTION = """
test{number}:
    pushal
    pushl $0x07654321
    pushl $0x01234567
    pushl registers+28
    popfl
    movl registers, %eax
    movl registers+4, %ebx
    movl registers+8, %ecx
    movl registers+12, %edx
    movl registers+16, %esi
    movl registers+20, %edi
    movl registers+24, %ebp
    {instruction}
    {sets}
    movl %eax, left
    movl %ebx, left+4
    movl %ecx, left+8
    movl %edx, left+12
    movl %esi, left+16
    movl %edi, left+20
    movl %ebp, left+24
    cmpl %eax, %eax
    popl left+28
    popl left+32
    popal
    ret
"""


def two_operands(choose):
    """A source and a target, of which at most one is in memory."""
    kinds = [(NUMBERS, WORDS), (NUMBERS, PLACES), (WORDS, WORDS), (WORDS, PLACES), (PLACES, WORDS)]
    source, target = choose(kinds)
    return f"{choose(source)}, {choose(target)}"


def shift(choose):
    name, count = choose(["shlw", "salw", "shrw", "sarw", "rolw", "rorw"]), choose(["%cl", "$1", "$3", "$8", "$15", ""])
    read = "" if count == "%cl" or name in ("rolw", "rorw") else choose(["", "CZS"])
    return f"{name} {count}{',' if count else ''} {choose(WORDS + PLACES)}", read


def division(choose):
    """Numbers whose quotient has 16 bits."""
    divisor = choose(["%bx", "%cx", "%si", "%di", "%bp", "places"])
    return f"movw $0x3333, {divisor}; movw $0x0123, %dx; {choose(['divw', 'idivw'])} {divisor}", ""


def find_bit(choose):
    """Of a word that is not 0: of 0 the processor leaves open what comes of it."""
    source = choose(LONGS + PLACES)
    return f"orl $64, {source}; {choose(['bsfl', 'bsrl', 'rep bsfl'])} {source}, {choose(LONGS)}", ""


def make(choose):
    """An instruction, and the flags that are looked at behind it."""
    one = choose(WORDS + PLACES)
    cases = [
        lambda: (f"{choose(CHANGES)} {two_operands(choose)}", choose(["", "C", "SO", "CZSO"])),
        lambda: (f"{choose(['adcw', 'sbbw'])} {two_operands(choose)}", choose(["", "CSO"])),
        lambda: (f"movw {two_operands(choose)}", "CZSO"),
        lambda: (f"cmpw {two_operands(choose)}", choose(["Z", "CZSO"])),
        lambda: (f"testw {choose(WORDS + NUMBERS)}, {one}", choose(["Z", "CZSO"])),
        lambda: shift(choose),
        lambda: (f"{choose(['incw', 'decw'])} {one}", choose(["", "ZSO"])),
        lambda: (f"negw {one}", choose(["", "CZSO"])),
        lambda: (f"notw {one}", "CZSO"),
        lambda: (f"imulw {one}, {choose(WORDS)}", ""),
        lambda: (f"imulw ${choose([77, -3, 1000])}, {one}, {choose(WORDS)}", ""),
        lambda: (f"{choose(['mulw', 'imulw'])} {one}", ""),
        lambda: division(choose),
        lambda: (choose(["cbtw", "cwtd"]), "CZSO"),
        lambda: (f"{choose(['movzbw', 'movsbw'])} {choose(BYTES + PLACES)}, {choose(WORDS)}", "CZSO"),
        lambda: (f"xchgw {choose(WORDS)}, {choose(WORDS)}", "CZSO"),
        lambda: (f"btl {choose(LONGS + ['$0', '$5', '$31'])}, {choose(LONGS)}", "C"),
        lambda: (f"{choose(['btsl', 'btrl', 'btcl'])} {choose(LONGS + ['$0', '$5', '$31'])}, {choose(LONGS)}", ""),
        lambda: find_bit(choose),
        lambda: (f"{choose(['rcll', 'rcrl'])} $1, {choose(LONGS)}", "C"),
        lambda: (f"bswapl {choose(LONGS)}", "ZS"),
    ]
    return choose(cases)()


def text_of(cases):
    """The functions of instructions, and where they stand."""
    functions = [
        FUNCTION.format(number=number, instruction=instruction, sets="\n    ".join(SETS[flag] for flag in read))
        for number, (instruction, read) in enumerate(cases)
    ]
    places = "".join(f"    .long test{number}\n" for number in range(len(cases)))
    space = "    .comm registers, 32\n    .comm left, 36\n    .comm places, 12\n    .comm flags, 4\n"
    tests = "    .data\n    .globl tests\ntests:\n" + places + "    .long 0\n"
    return "    .text\n" + "".join(functions) + tests + space


def run(folder, sources):
    """What a program of these sources prints, by lines."""
    program = os.path.join(folder, "program")
    subprocess.run(["gcc", *FLAGS, "-o", program, *sources], check=True)
    return subprocess.run([program], capture_output=True, text=True, check=True).stdout.splitlines()


def compare(folder, cases, seed):
    """The numbers of the instructions that do something else behind widen."""
    caller, plain, other = (os.path.join(folder, name) for name in ("caller.c", "plain.s", "other.s"))
    with open(caller, "w", encoding="ascii") as file:
        file.write(CALLER.replace("SEED", str(seed * 2 + 1)))
    with open(plain, "w", encoding="ascii") as file:
        file.write(text_of(cases))
    with open(other, "w", encoding="ascii") as file:
        subprocess.run([os.path.join(PORT, "widen"), plain], stdout=file, check=True)
    library = [os.path.join(PORT, "lib", name) for name in ("bits.S", "arithmetic.c")]
    pairs = zip(run(folder, [caller, plain]), run(folder, [caller, other, *library]), strict=True)
    return sorted({int(first.split()[0], 16) for first, second in pairs if first != second})


def main():
    parser = argparse.ArgumentParser(description=__doc__, formatter_class=argparse.RawDescriptionHelpFormatter)
    parser.add_argument("--seed", type=int, default=1, metavar="N")
    parser.add_argument("--count", type=int, default=2000, metavar="N")
    given = parser.parse_args()
    choose = random.Random(given.seed).choice
    cases = [make(choose) for _ in range(given.count)]
    with tempfile.TemporaryDirectory() as folder:
        differing = compare(folder, cases, given.seed)
    for number in differing:
        print(f"another result: {cases[number][0]}")
    print(f"{len(differing)} differences")
    sys.exit(len(differing) > 0)


if __name__ == "__main__":
    main()
