#!/usr/bin/env python3
"""Runs the gate, or a part of it, and tells what each crate cost: seconds of the processor, and behind a stroke how many
checks they were.

    python3 bench/watch.py rt ci --anew

Twice a second it reads the processor times of all that the command has started, as the system tells them, and puts them
together by the crate and by what was done: a proof from nothing; the same with tests; the compilers; the check from
nothing that the edits of a crate begin with, which keeps its work; the check of the unchanged crate over that work; and
the edits. A proof that an earlier run has kept costs nothing here, so the whole is told by `--anew` alone. What lies
between the last look and the end of a check is lost, half a second at most for each. `bench/gate.sh NAME` measures one
crate in more quiet, with the modules that its check loads.
"""

import collections
import os
import resource
import subprocess
import sys
import time

KINDS = ("Proof", "With tests", "Compilers", "For edits", "Unchanged", "Edits")
TICKS = os.sysconf("SC_CLK_TCK")


def times():
    """The parent, the start and the processor seconds of each process, by its number."""
    found = {}
    for name in os.listdir("/proc"):
        if name.isdigit():
            try:
                with open(f"/proc/{name}/stat", encoding="utf-8", errors="replace") as file:
                    fields = file.read().rpartition(")")[2].split()
            except OSError:
                continue
            used = (int(fields[11]) + int(fields[12])) / TICKS
            found[int(name)] = (int(fields[1]), int(fields[19]), used)
    return found


def below(top, found):
    """The numbers of the processes that a process has started, and these in turn."""
    children = collections.defaultdict(list)
    for number, (parent, _, _) in found.items():
        children[parent].append(number)
    waiting, reached = [top], []
    while waiting:
        for child in children[waiting.pop()]:
            reached.append(child)
            waiting.append(child)
    return reached


def work_of(number):
    """The crate that a process checks, and what the check is for, or None where it checks none."""
    try:
        with open(f"/proc/{number}/cmdline", "rb") as file:
            words = file.read().decode(errors="replace").split("\0")
        folder = os.readlink(f"/proc/{number}/cwd")
    except OSError:
        return None
    if os.path.basename(words[0]) != "rattle" or "--crate-name" not in words:
        return None
    crate = words[words.index("--crate-name") + 1]
    if "/rt-edit-" in folder:
        over = words[words.index("--incremental") + 1] if "--incremental" in words else ""
        return crate, "For edits" if over.endswith("/seed") else "Edits"
    if "--test" in words:
        return crate, "With tests"
    return crate, "Compilers" if "--crate-checked" in words else "Proof"


def watch(command):
    """Runs the command, and gives its status and the processor seconds of each check, with its crate and its kind."""
    started = subprocess.Popen(command)
    seen = {}
    while started.poll() is None:
        found = times()
        for number in below(started.pid, found):
            _, start, used = found[number]
            # it is another program before it is one that checks
            work = seen.get((number, start), (None, 0))[0] or work_of(number)
            seen[number, start] = (work, used)
        time.sleep(0.5)
    return started.returncode, [(work, used) for work, used in seen.values() if work]


def main(command):
    if not command:
        print(__doc__)
        return 2
    begun = time.time()
    status, checks = watch(command)
    took = collections.defaultdict(lambda: [0.0, 0])
    for (crate, kind), used in checks:
        # over the same work the unchanged crate is checked once more, when its edits were tried
        if kind == "For edits" and took[crate, kind][1]:
            kind = "Unchanged"
        took[crate, kind][0] += used
        took[crate, kind][1] += 1
    print("| Crate | " + " | ".join(KINDS) + " |")
    print("|---" * (len(KINDS) + 1) + "|")
    for crate in sorted({crate for crate, _ in took}):
        cells = [took.get((crate, kind), (0, 0)) for kind in KINDS]
        print(f"| `{crate}` | " + " | ".join(f"{used:.0f} / {count}" if count else "" for used, count in cells) + " |")
    sums = [sum(used for (_, of), (used, _) in took.items() if of == kind) / 60 for kind in KINDS]
    print("| Minutes | " + " | ".join(f"{it:.1f}" for it in sums) + " |")
    spent = resource.getrusage(resource.RUSAGE_CHILDREN)
    print(f"{(spent.ru_utime + spent.ru_stime) / 60:.0f} minutes of the processors in all, {(time.time() - begun) / 60:.0f} of the clock")
    return status


if __name__ == "__main__":
    sys.exit(main(sys.argv[1:]))
