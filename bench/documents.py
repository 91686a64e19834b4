#!/usr/bin/env python3
"""Runs the command lines of documents as they stand there, and compares what they print.

    bench/documents.py [--write] [FILE..]     without a FILE: README.md and those of docs/, examples/, examples/disk/ and release/

A line that is indented by four spaces and begins with `$ ` is a command, which goes on in the next lines as long as bash
would ask for more; the indented lines behind it are what it prints, on both streams. A line `..` stands for any lines. The
commands of one document are run one after another by one bash, in a copy of the checkout without its .git, so that they
may make files. With --write what is printed is written into the document, where it is another and there is no `..`.

An indented line that makes a run, with `$ ` or not, has to give it an input, and so has such a command within a text: whoever
copies it to a terminal would wait for one. The last line is 'N passed, N failed'.
"""
import argparse
import os
import re
import shutil
import subprocess
import sys
import tempfile
from dataclasses import dataclass

TOP = os.path.dirname(os.path.dirname(os.path.abspath(__file__)))
INDENT = "    "
MARK = "documents.py: the end of a command"


@dataclass
class Command:
    """A command of a document, and the lines of the document that are what it prints, from start up to end."""

    text: str
    start: int
    end: int


def waits(command):
    """Whether a command makes a run that is given no input."""
    makes_run = re.search(r"(\./jos +(exo|run)|examples/(calls|search|steps|turns))\s+\S", command)
    return makes_run is not None and not re.search("[<|]", command)


def waiting_in(lines):
    """The commands of a document that would wait for an input."""
    indented = [line.split(" #")[0].strip() for line in lines if line.startswith(INDENT)]
    within = re.findall("`([^`]+)`", "\n".join(line for line in lines if not line.startswith(INDENT)))
    return [command for command in indented + within if waits(command)]


def is_whole(command):
    """Whether bash would ask for no more lines."""
    made = subprocess.run(["bash", "-n", "-c", command], capture_output=True, text=True, check=False)
    return made.returncode == 0 and "here-document" not in made.stderr and not command.endswith("\\")


def commands(lines):
    """The commands of a document."""
    found = []
    at = 0
    while at < len(lines):
        if lines[at].startswith(INDENT + "$ "):
            text = lines[at][len(INDENT) + 2 :]
            at += 1
            while not is_whole(text):
                text += "\n" + lines[at][len(INDENT) :]
                at += 1
            start = at
            while at < len(lines) and lines[at].startswith(INDENT) and not lines[at].startswith(INDENT + "$ "):
                at += 1
            found.append(Command(text, start, at))
        else:
            at += 1
    return found


def is_any(line):
    return line.strip() == ".."


def matches(printed, wanted):
    """Whether lines are the wanted ones, among which `..` stands for any."""
    pattern = "".join("(?:.*\n)*" if is_any(line) else re.escape(line) + "\n" for line in wanted)
    return re.fullmatch(pattern, "".join(line + "\n" for line in printed)) is not None


def left_out(folder, names):
    """What of a folder is not copied: what is large, and is not wanted to run ./jos."""
    large = {".git", "obj"} | ({"out"} if folder != TOP else set())
    return large & set(names)


def run(found):
    """Runs commands in a copy of the checkout, and gives what each prints."""
    script = "".join(f"{command.text}\necho '{MARK}'\n" for command in found)
    with tempfile.TemporaryDirectory() as folder:
        copy = os.path.join(folder, "jos")
        shutil.copytree(TOP, copy, symlinks=True, ignore=left_out)
        streams = {"stdout": subprocess.PIPE, "stderr": subprocess.STDOUT, "text": True, "errors": "replace"}
        made = subprocess.run(["bash"], cwd=copy, input=script, check=False, **streams)
    return [text.splitlines() for text in made.stdout.split(MARK + "\n")[:-1]]


def check(name, write):
    """Runs the commands of one document, and gives how many there are and how many failed."""
    path = os.path.join(TOP, name)
    with open(path, encoding="utf-8") as file:
        lines = file.read().splitlines()
    found = commands(lines)
    printed = run(found) if found else []
    failed = len(found) - len(printed)
    waiting = waiting_in(lines)
    for command in waiting:
        print(f"{name}: FAILED: waits for an input: {command}")
    for command, got in reversed(list(zip(found, printed))):
        wanted = [line[len(INDENT) :] for line in lines[command.start : command.end]]
        if not matches(got, wanted):
            failed += 1
            print(f"{name}: FAILED: {command.text}\nprints:\n" + "\n".join(got))
            if write and not any(map(is_any, wanted)):
                lines[command.start : command.end] = [INDENT + line if line else line for line in got]
    if write:
        with open(path, "w", encoding="utf-8") as file:
            file.write("\n".join(lines) + "\n")
    return len(found) + len(waiting), failed + len(waiting)


def main():
    parser = argparse.ArgumentParser(description=__doc__, formatter_class=argparse.RawDescriptionHelpFormatter)
    parser.add_argument("--write", action="store_true")
    parser.add_argument("files", metavar="FILE", nargs="*")
    given = parser.parse_args()
    names = [os.path.relpath(name, TOP) for name in given.files]
    if not names:
        found = [f"{folder}/{name}" for folder in ("docs", "examples", "examples/disk", "release") for name in os.listdir(f"{TOP}/{folder}")]
        names = ["README.md"] + sorted(name for name in found if name.endswith(".md"))
    counts = [check(name, given.write) for name in names]
    failed = sum(more for _, more in counts)
    print(f"{sum(count for count, _ in counts) - failed} passed, {failed} failed")
    sys.exit(failed > 0)


if __name__ == "__main__":
    main()
