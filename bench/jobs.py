#!/usr/bin/env python3
"""Compares the jobs on files, as crates/fs_tree makes them step by step over the block cache, with the model of blocks.py.

    bench/jobs.py [COUNT [SEED]]     COUNT random disks (10 without a word), with 25 random acts on each

The jobs are those of the program crates/tree_tests as it is built from its sources, which reads them from its input
(`cd crates/tree_tests && rt run </dev/null` builds it). Behind each job
the answer and what is handed back are those of the model; behind all jobs and a flush the host's file is, byte by byte, the disk that
the acts on blocks leave (block_acts.py), which blocks.py compares with the tree of files, and the program, out/jos, lists and prints what stands on it. At last
it tells the jobs of the most calls. The last line is 'N passed, N failed'.
"""
import os
import random
import subprocess
import sys
import tempfile

import block_acts
import blocks
from disks import BLOCK, random_disk

PIECE = 1024
PROGRAM = os.path.join(os.path.dirname(os.path.abspath(__file__)), "..", "crates", "tree_tests", "out", "tree_tests")


class Script:
    """Lines for the program, and what is wanted for each."""

    def __init__(self):
        self.lines = []
        self.wanted = []

    def say(self, line, wanted):
        self.lines.append(line)
        self.wanted.append(wanted)

    def job(self, line, answer):
        self.say(line, f"{answer:x}")
        self.say("calls", None)


def put_disk(script, chance, data):
    script.say(f"disk {chance.choice([0x200, 0x400, 0x1000]):x} {block_acts.block_count(data):x} 0", "begins")
    for place in range(0, len(data), PIECE):
        piece = data[place : place + PIECE]
        if any(piece):
            script.say(f"bytes {place:x} {piece.hex()}", "done")


def put_act(script, act, data, is_open, answer, handed):
    """The lines of an act; False where the program has no such job."""
    kind = act[0]
    if kind in ("open_path", "remove_path"):
        script.say("page " + act[1].hex(), "done")
        if kind == "open_path":
            script.job(f"open {act[2]:x}", answer)
            return
        found = block_acts.led_to(data, act[1])
        is_file = found[0] == "a_record" and not block_acts.is_directory(data, found[1])
        script.job("find", found[1] if is_file else answer)
        if is_file and not is_open(found[2]):
            script.job(f"remove {found[1]:x}", answer)
        return
    home = block_acts.place_at(data, act[1])
    if home is None:
        return
    if kind == "write_file":
        script.say("page " + (bytes(8) + act[3]).hex(), "done")
        script.job(f"write {home:x} {act[2]:x} {len(act[3]):x}", answer)
    elif kind == "set_file_size":
        script.job(f"size {home:x} {act[2]:x}", answer)
    elif kind == "read_file":
        script.job(f"read {home:x} {act[2]:x} {act[3]:x}", answer)
    else:
        script.job(f"stat {home:x}", answer)
        script.job(f"length {home:x}", int.from_bytes(handed[128:132], "little") if handed else answer)
    if handed:
        script.say(f"reply {len(handed):x}", handed.hex())


def put_case(script, chance):
    """A disk and its acts; gives the disk behind them, and the tree."""
    data, _ = random_disk(chance)
    while len(data) > 300 * BLOCK:
        data, _ = random_disk(chance)
    put_disk(script, chance, data)
    tree = blocks.Tree(data)
    for _ in range(25):
        opened = [way for way, _ in blocks.ways(tree.root) if chance.random() < 0.1]
        is_open = lambda way, opened=opened: list(way) in opened
        act = blocks.random_act(chance, tree)
        tree.act(act, is_open)
        changes, answer, handed = block_acts.plan_of(is_open, data, act)
        put_act(script, act, data, is_open, answer, handed)
        data = bytes(block_acts.written(block_acts.puts_in_turn(changes, data), data))
    script.say("flush", "clean")
    script.say(f"file 0 {len(data):x}", data.hex())
    return data, tree


def told_lines(lines):
    """What the program tells for these lines."""
    done = subprocess.run([PROGRAM], input="\n".join(lines) + "\n", capture_output=True, text=True, check=False)
    told = done.stdout.split("\n")
    if len(told) <= len(lines):
        print(f"the program told {len(told) - 1} lines of {len(lines)}", done.stderr[-300:])
    return told


def main():
    count = int(sys.argv[1]) if len(sys.argv) > 1 else 10
    seed = int(sys.argv[2]) if len(sys.argv) > 2 else 1
    if not os.path.exists(PROGRAM):
        sys.exit("crates/tree_tests is not built: cd crates/tree_tests && rt run </dev/null")
    passed, calls = 0, []
    with tempfile.TemporaryDirectory() as place:
        for number in range(seed, seed + count):
            script = Script()
            data, tree = put_case(script, random.Random(number))
            told = told_lines(script.lines)
            good = len(told) > len(script.lines)
            for line, wanted, answer in zip(script.lines, script.wanted, told):
                if wanted is None:
                    calls.append((int(answer.split()[0]), last))
                elif answer != wanted:
                    good = False
                    print(f"disk {number}: {line[:60]}: {answer[:60]} and not {wanted[:60]}")
                last = line
            if good and blocks.shown(random.Random(number), place, data, tree):
                passed += 1
            else:
                print(f"disk {number} failed")
    for number, line in sorted(calls)[-3:]:
        print(f"{number} calls: {line}")
    print(f"{passed} passed, {count - passed} failed")
    sys.exit(passed != count)


if __name__ == "__main__":
    main()
