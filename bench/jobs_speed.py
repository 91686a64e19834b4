#!/usr/bin/env python3
"""Measures the jobs on files, as crates/fs_tree makes them step by step over the block cache: how many calls of the kernel each is, and how long.

    bench/jobs_speed.py     a table: bytes in pieces of 4,088, files made and removed, a name looked up, and the memory of a cache

The jobs are those of the program crates/tree_tests as it is built from its sources, which reads them from its input
(`cd crates/tree_tests && rt run </dev/null` builds it). Each time is the least of three runs, less that of the same lines without the jobs.
"""
import os
import re
import struct
import subprocess
import sys
import time

HERE = os.path.dirname(os.path.abspath(__file__))
PROGRAM = os.path.join(HERE, "..", "crates", "tree_tests", "out", "tree_tests")
BLOCK, RECORD, PIECE = 4096, 256, 4088
FRAMES, BLOCKS = 0x10000, 0x4000  # the most of each
ROOT = 0x1008
CREATE = 0x101


def record(name, size, kind, numbers, indirect=0):
    """A record of a directory (MIT 6.828, lab 5: inc/fs.h)."""
    return (name.ljust(128, b"\0") + struct.pack("<II10II", size, kind, *(numbers + [0] * 10)[:10], indirect)).ljust(RECORD, b"\0")


def lines_of(content, at):
    """The lines that put bytes into the disk."""
    return [f"bytes {at + k:x} {content[k : k + 1024].hex()}" for k in range(0, len(content), 1024)]


def disk(root, used, more=()):
    """A disk with this root, on which so many of the first blocks are used; the bitmap's blocks are 2 and, for more than 32,768 blocks, the next."""
    bits = bytearray(b"\xff" * BLOCK)
    for block in range(used, BLOCKS):
        bits[block // 8] |= 1 << block % 8
    for block in range(used):
        bits[block // 8] &= ~(1 << block % 8) & 255
    lines = [f"disk {FRAMES:x} {BLOCKS:x} 0"] + lines_of(struct.pack("<II", 0x4A0530AE, BLOCKS) + root, BLOCK) + lines_of(bytes(bits), 2 * BLOCK)
    return lines + [line for at, content in more for line in lines_of(content, at)]


def told(lines):
    """What the program tells, and the seconds that it took."""
    begin = time.perf_counter()
    done = subprocess.run([PROGRAM], input="\n".join(lines) + "\n", capture_output=True, text=True, check=False)
    seconds = time.perf_counter() - begin
    answers = done.stdout.split("\n")
    if len(answers) <= len(lines):
        sys.exit(f"the program told {len(answers) - 1} lines of {len(lines)} {done.stderr[-200:]}")
    return answers, seconds


def measure(title, begin, each):
    """`each` gives the lines before a job and the job itself; the job's answer has to be what is told."""
    without, whole, jobs = list(begin), list(begin), []
    for before, job, wanted in each:
        without += before
        whole += before + [job, "calls"]
        jobs.append((len(whole) - 2, wanted))
    least, least_without = 1e9, 1e9
    for _ in range(3):
        answers, seconds = told(whole)
        least = min(least, seconds)
        least_without = min(least_without, told(without)[1])
    for place, wanted in jobs:
        if answers[place] != wanted:
            sys.exit(f"{title}: {whole[place]}: {answers[place]} and not {wanted}")
    calls = sum(int(answers[place + 1].split()[0]) for place, _ in jobs)
    seconds = least - least_without
    # a time that is short beside what the lines themselves take is not told
    time_told = f"{seconds * 1e3:9.0f} ms {seconds * 1e9 / calls:5.0f} ns a call" if calls > 1_000_000 else ""
    print(f"{title:44} {len(jobs):5} jobs {calls:10} calls {calls / len(jobs):10.1f} each {time_told}".rstrip())


def path(text):
    return "path " + text


def place_of(number):
    """Where the record with this number of the root stands, which grew block by block: the indirect block came behind the tenth."""
    block = number * RECORD // BLOCK
    return BLOCK * (3 + block + (block >= 10)) + number * RECORD % BLOCK


def main():
    if not os.path.exists(PROGRAM):
        sys.exit("crates/tree_tests is not built: cd crates/tree_tests && rt run </dev/null")
    empty = disk(record(b"/", BLOCK, 1, [3]), 4)
    opened = [path("/f"), f"open {CREATE:x}"]
    home = 3 * BLOCK
    total = 4 * 1024 * 1024
    places = range(0, total, PIECE)
    piece = "page " + "00" * 8 + "5a" * PIECE
    length = [min(PIECE, total - at) for at in places]
    measure("4 MB written, in pieces of 4,088", empty + opened,
            [([piece], f"write {home:x} {at:x} {n:x}", f"{n:x}") for at, n in zip(places, length)])
    filled = empty + opened + [line for at, n in zip(places, length) for line in (piece, f"write {home:x} {at:x} {n:x}")]
    measure("4 MB read, in pieces of 4,088", filled,
            [([], f"read {home:x} {at:x} {n:x}", f"{n:x}") for at, n in zip(places, length)])
    names = [f"/{k:04}" for k in range(1000)]
    measure("1,000 files made in the root", empty, [([path(name)], f"open {CREATE:x}", "0") for name in names])
    made = empty + [line for name in names for line in (path(name), f"open {CREATE:x}")]
    measure("1,000 removed again", made,
            [([], f"remove {place_of(k):x}", "0") for k in range(len(names))])

    # 16,000 records in 1,000 blocks: ten numbers of the root, and 990 in its indirect block
    records = b"".join(record(b"%05d" % k, 0, 0, []) for k in range(16000))
    numbers = list(range(4, 1004))
    wide = disk(record(b"/", len(records), 1, numbers[:10], 1004), 1005,
                [(4 * BLOCK, records), (1004 * BLOCK, struct.pack("<990I", *numbers[10:]))])
    for title, name in (("the first of 16,000 records is looked up", "00000"), ("the last of 16,000 records", "15999"), ("one that is not there", "none")):
        wanted = "0" if name != "none" else f"{2**32 - 11:x}"
        measure(title, wide + [path("/15999"), "find"], [([path("/" + name)], "find", wanted)])

    # the pages of the cache are frames of the machine, which are there before a block is read
    for lines, what in ((wide[:1], "of 65,536 frames, before a block is read"), (wide + [path("/none"), "find"], "behind a look-up in 16,000 records")):
        done = subprocess.run(["/usr/bin/time", "-f", "%M", PROGRAM], input="\n".join(lines) + "\n", capture_output=True, text=True, check=False)
        print(f"memory of a machine {what}: {int(re.findall(r'[0-9]+', done.stderr)[-1]) / 1024:.0f} MB")


if __name__ == "__main__":
    main()
