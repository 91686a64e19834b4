#!/usr/bin/env python3
"""Builds programs of others for the machine, runs them, and compares what they print with what they print here.

    bench/ported.py [--keep FOLDER] [PROGRAM..]     without a PROGRAM all of them

    zlib bzip2 lz4 libtomcrypt tre doubles lua mujs duktape

A program is the library of that name, from a source package of Debian, with a main that uses it, ported/NAME.c. It is
built twice: by gcc for this machine, with its C library, and by examples/port/cc. The images are run under `exo` and
under `run`, by three schedules each, and under `exo` once more beside itself: two environments of one image, in turns
of 7. Each console has to be what the program prints on this machine, byte by byte, and that of two at once the lines
of both, each one's in their order. A table tells it:

    lines       of the C files of the package that are built, without headers
    bytes       of the image for `exo`
    steps       of the run under `exo` without a schedule
    million/s   so many million of them were made in a second of processor time
    exo, run    whether it was the same, by the schedules none, short and seven

none has turns of 1,000 steps; short has 800,000 turns of 1 to 60, by a random generator, and then some of 1,000; seven
has 1,000,000 turns of 7, and then some of 1,000,000, for a run has no more than 1,048,576 turns.

It takes the network, gcc, make, apt and dpkg. apt fetches the sources, from where the packages of this machine come,
into the folder that the variable PORTED_CACHE names, where they stay; without it, into one that is removed at the end.
What cannot be had or built is told, and left out. The status is 1 where a comparison failed, and 2 where none was made.
"""
import argparse
import fnmatch
import os
import random
import re
import resource
import shutil
import signal
import subprocess
import sys
import tempfile
from concurrent.futures import ThreadPoolExecutor
from dataclasses import dataclass

import ported_programs as programs
from ported_sources import Absent, Sources

TOP = os.path.dirname(os.path.dirname(os.path.abspath(__file__)))
MAINS = os.path.join(TOP, "bench", "ported")
LIBRARY = os.path.join(TOP, "examples", "port")
JOS = os.path.join(TOP, "out", "jos")

HERE = ["gcc"]
MACHINE = [os.path.join(LIBRARY, "cc")]
SOFT = ("-msoft-float", "-mlong-double-64")
JOBS = 2
STEPS_MAX = 1_000_000_000
RUN_SECONDS = 300
BLOCK = 4096

NOTE = re.compile(r"done steps (\d+) turns \d+ refused \d+ upcalls \d+")
COLUMNS = "{:<12} {:<12} {:>6} {:>7} {:>10} {:>9}  {:<16}  {:<16}  {}"
HEADS = ("program", "version", "lines", "bytes", "steps", "million/s", "exo", "run", "two at once")


def tool(words, **more):
    """Runs a tool to its end, and gives what it prints, or raises Absent with the first of its errors."""
    try:
        made = subprocess.run(words, capture_output=True, text=True, errors="replace", check=False, **more)
    except OSError as error:
        raise Absent(f"{words[0]}: {error.strerror}") from None
    if made.returncode != 0:
        lines = made.stderr.splitlines()
        errors = [line for line in lines if re.search("error|undefined|widen:", line)]
        raise Absent(f"{os.path.basename(words[0])}: {(errors or lines or [f'status {made.returncode}'])[0]}")
    return made.stdout


def content_of(path):
    try:
        with open(path, encoding="utf-8") as file:
            return file.read()
    except FileNotFoundError:
        raise Absent(f"there is no {path}") from None


def write(path, text):
    os.makedirs(os.path.dirname(path), exist_ok=True)
    with open(path, "w", encoding="utf-8") as file:
        file.write(text)


def matching(folder, patterns):
    """The files of a folder by patterns, as paths within it; a pattern that begins with ! takes files away."""
    places = ((place, name) for place, _, found in os.walk(folder) for name in found)
    names = sorted(os.path.relpath(os.path.join(place, name), folder) for place, name in places)
    chosen = []
    for pattern in patterns:
        if pattern.startswith("!"):
            chosen = [name for name in chosen if not fnmatch.fnmatch(name, pattern[1:])]
            continue
        more = [name for name in names if fnmatch.fnmatch(name, pattern) and name not in chosen]
        if not more:
            raise Absent(f"the package has no {pattern}")
        chosen += more
    return chosen


def lines_in(paths):
    """How many lines some files have."""
    count = 0
    for path in paths:
        with open(path, "rb") as file:
            count += file.read().count(b"\n")
    return count


def includes(folder, names):
    return ["-I" + os.path.join(folder, name) for name in names]


def compiled(compiler, folder, names, place, flags):
    """The objects of the sources of a folder, each in a file of its own."""

    def compile_one(name):
        made = os.path.join(place, name.replace("/", "_") + ".o")
        tool([*compiler, *flags, "-w", "-c", "-o", made, os.path.join(folder, name)])
        return made

    os.makedirs(place, exist_ok=True)
    with ThreadPoolExecutor(JOBS) as pool:
        return list(pool.map(compile_one, names))


class Doubles:
    """What stands for the coprocessor: an archive of functions, and a folder with the headers that go with them."""

    def __init__(self, sources, folder):
        self.archive = os.path.join(folder, "doubles.a")
        self.headers = os.path.join(folder, "headers")
        objects = self.arithmetic(sources, os.path.join(folder, "arithmetic"))
        objects += self.functions(sources, os.path.join(folder, "functions"))
        objects += compiled(MACHINE, MAINS, ["absent.c"], folder, ["-O1", *self.flags()])
        tool(["ar", "rcs", self.archive, *objects])

    def flags(self):
        """The flags of a source that has doubles."""
        return [*SOFT, "-I" + self.headers, "-include", os.path.join(MAINS, "absent.h")]

    def arithmetic(self, sources, folder):
        """What gcc calls for sums, products and so on."""
        version = sources.unpack(programs.ARITHMETIC, programs.ARITHMETIC_FILES, folder)
        self.told = f"doubles by {programs.ARITHMETIC} {version}"
        flags = [*SOFT, "-O1", *programs.ARITHMETIC_FLAGS, *includes(folder, programs.ARITHMETIC_INCLUDES)]
        return compiled(MACHINE, folder, programs.ARITHMETIC_SOURCES, os.path.join(folder, "made"), flags)

    def functions(self, sources, folder):
        """Those of <math.h>, strtod and those that print, of which some get other names."""
        version = sources.unpack(programs.FUNCTIONS, programs.FUNCTIONS_FILES, folder)
        self.told += f" and {programs.FUNCTIONS} {version}"
        made = os.path.join(folder, "made")
        types = [os.path.join(folder, name) for name in ("arch/i386/bits/alltypes.h.in", "include/alltypes.h.in")]
        types_text = tool(["sed", "-f", os.path.join(folder, "tools/mkalltypes.sed"), *types])
        write(os.path.join(made, "bits/alltypes.h"), types_text)
        write(os.path.join(made, "bits/syscall.h"), "")
        # the limits of a machine where long double is double
        write(os.path.join(made, "bits/float.h"), content_of(os.path.join(folder, "arch/arm/bits/float.h")))
        write(os.path.join(self.headers, "bits/alltypes.h"), types_text)
        for name in ("math.h", "features.h"):
            write(os.path.join(self.headers, name), content_of(os.path.join(folder, "include", name)))
        flags = [*SOFT, "-O1", "-std=c99", "-D_XOPEN_SOURCE=700", *includes(folder, programs.FUNCTIONS_INCLUDES)]
        objects = compiled(MACHINE, folder, programs.FUNCTIONS_SOURCES, made, flags)
        names = [word for name in programs.RENAMED for word in ("--redefine-sym", f"{name}=double_{name}")]
        for name in objects:
            tool(["objcopy", *names, name])
        return objects


class Built:
    """A program in its three forms: for this machine, and as images for `exo` and for `run`."""

    def __init__(self, program, sources, doubles, folder):
        package = os.path.join(folder, "package")
        self.native, self.exo, self.run = (os.path.join(folder, form) for form in ("native", "exo", "run"))
        self.version = sources.unpack(program.package, program.files, package)
        names = matching(package, program.sources)
        self.lines = lines_in(os.path.join(package, name) for name in names)
        if program.script:
            numbers = ", ".join(str(byte) for byte in content_of(os.path.join(MAINS, program.script)).encode())
            write(os.path.join(folder, "script.h"), f"static const char script[] = {{ {numbers}, 0 }};\n")
        flags = ["-O1", *program.flags, *includes(package, program.includes), "-I" + MAINS, "-I" + folder]

        objects = self.objects(HERE, package, names, program.name, flags)
        tool([*HERE, "-o", self.native, *objects, "-lm"])

        flags.append("-I" + os.path.join(MAINS, "inc"))
        if doubles:
            flags += [*doubles.flags(), *(f"-D{name}=double_{name}" for name in programs.PRINTING)]
        objects = self.objects(MACHINE, package, names, program.name, flags)
        archives = [doubles.archive] if doubles else []
        tool([*MACHINE, "-o", self.exo, *objects, *archives])
        tool([*MACHINE, "--run", "-o", self.run, *objects, *archives])

    def objects(self, compiler, package, names, main, flags):
        """Those of the package and of the main."""
        place = os.path.join(os.path.dirname(package), "objects-" + os.path.basename(compiler[0]))
        made = compiled(compiler, package, names, place, flags)
        return compiled(compiler, MAINS, [f"{main}.c"], os.path.join(place, "main"), flags) + made

    def keep(self, name, folder):
        """Puts the three forms into a folder."""
        os.makedirs(folder, exist_ok=True)
        for path in (self.native, self.exo, self.run):
            shutil.copy(path, os.path.join(folder, f"{name}.{os.path.basename(path)}"))


@dataclass
class Run:
    """A run: its console, the steps that it made, the processor time, and what is amiss, if anything is."""

    console: bytes
    steps: int
    seconds: float
    fault: str = ""


def processor_seconds():
    used = resource.getrusage(resource.RUSAGE_CHILDREN)
    return used.ru_utime + used.ru_stime


def run(words):
    """Makes a run of jos without input."""
    before = processor_seconds()
    streams = {"stdin": subprocess.DEVNULL, "capture_output": True}
    try:
        made = subprocess.run([JOS, *words], timeout=RUN_SECONDS, check=False, **streams)
    except subprocess.TimeoutExpired:
        return Run(b"", 0, 0, f"over {RUN_SECONDS} seconds")
    note = (made.stderr.decode(errors="replace").splitlines() or [f"status {made.returncode}"])[-1]
    done = NOTE.fullmatch(note)
    return Run(made.stdout, int(done[1]) if done else 0, processor_seconds() - before, "" if done else note)


def printed_here(path):
    """What a program prints on this machine, where it comes to a good end."""
    streams = {"stdin": subprocess.DEVNULL, "capture_output": True}
    try:
        made = subprocess.run([path], timeout=RUN_SECONDS, check=False, **streams)
    except subprocess.TimeoutExpired:
        raise Absent(f"on this machine it takes over {RUN_SECONDS} seconds") from None
    if made.returncode != 0 or not made.stdout:
        last = (made.stdout.decode(errors="replace").splitlines() or ["nothing is printed"])[-1]
        raise Absent(f"on this machine it ends with status {made.returncode}: {last}")
    return made.stdout


def is_shuffled(lines, once):
    """Whether lines are those of two copies of a list, each in its order."""
    of_first = {0}  # how many of the lines so far may be of the first copy
    for k, line in enumerate(lines):
        after = set()
        for first in of_first:
            if first < len(once) and once[first] == line:
                after.add(first + 1)
            if k - first < len(once) and once[k - first] == line:
                after.add(first)
        of_first = after
    return len(lines) == 2 * len(once) and len(once) in of_first


def verdict(made, wanted, both=False):
    """In a word, whether a run has printed what is wanted, by one environment or by two."""
    if made.fault:
        return made.fault
    same = is_shuffled(made.console.splitlines(), wanted.splitlines()) if both else made.console == wanted
    return "same" if same else "OTHERS"


def write_schedules(folder):
    """The schedules by their names, each as the words that have a run use it."""
    generator = random.Random(6828)
    texts = {
        "short": [generator.randint(1, 60) for _ in range(800_000)] + [1000],
        "seven": [7] * 1_000_000 + [1_000_000],
    }
    words = {"none": []}
    for name, turns in texts.items():
        path = os.path.join(folder, name)
        write(path, " ".join(map(str, turns)) + "\n")
        words[name] = ["--schedule", path]
    return words


def compare(built, schedules):
    """Makes the runs of a program, and gives the first one and the verdicts: of `exo`, of `run`, and of two at once."""
    wanted = printed_here(built.native)
    disk = built.run + ".disk"
    tool([JOS, "mkfs", disk, str(os.path.getsize(built.run) // BLOCK + 64), built.run])
    steps = f"--steps={STEPS_MAX}"
    of_exo = [run(["exo", steps, *words, built.exo]) for words in schedules.values()]
    of_run = [run(["run", steps, *words, disk, os.path.basename(built.run)]) for words in schedules.values()]
    both = run(["exo", steps, *schedules["seven"], built.exo, built.exo])
    told = [[verdict(made, wanted) for made in runs] for runs in (of_exo, of_run)]
    return of_exo[0], told, verdict(both, wanted, both=True)


class Bench:
    """What the programs have in common: the sources, the schedules, and the doubles once they are asked for."""

    def __init__(self, folder, cache, kept):
        self.folder, self.kept = folder, kept
        self.sources = Sources(os.path.abspath(cache or os.path.join(folder, "sources")))
        self.schedules = write_schedules(folder)
        self.doubles = self.fault = None
        # the first run has the launcher make the program
        subprocess.run([os.path.join(TOP, "jos")], stdin=subprocess.DEVNULL, capture_output=True, check=False)
        tool(["make", "-s", "-C", LIBRARY])

    def built_doubles(self):
        """They are built once; what hinders it is told for each program that wants them."""
        if not self.doubles and not self.fault:
            try:
                self.doubles = Doubles(self.sources, os.path.join(self.folder, "doubles"))
            except Absent as error:
                self.fault = Absent(f"doubles: {error}")
        if self.fault:
            raise self.fault
        return self.doubles

    def tell(self, program):
        """Builds and runs a program, tells it by a line of the table, and gives whether all was the same."""
        with tempfile.TemporaryDirectory(dir=self.folder) as folder:
            doubles = self.built_doubles() if program.doubles else None
            built = Built(program, self.sources, doubles, folder)
            if self.kept:
                built.keep(program.name, self.kept)
            first, told, both = compare(built, self.schedules)
            speed = f"{first.steps / first.seconds / 1e6:.1f}" if first.seconds and not first.fault else "-"
            columns = [program.name, built.version, built.lines or "-", os.path.getsize(built.exo), first.steps, speed]
            print(COLUMNS.format(*columns, *map(", ".join, told), both), flush=True)
        return all(word == "same" for word in [*told[0], *told[1], both])


def compare_all(bench, chosen):
    """Tells the table of some programs, and gives the status."""
    print(COLUMNS.format(*HEADS), flush=True)
    outcomes = []
    for program in chosen:
        try:
            outcomes.append(bench.tell(program))
        except Absent as error:
            print(f"{program.name}: left out: {error}", flush=True)
    if bench.doubles:
        print(bench.doubles.told)
    failed = outcomes.count(False)
    print(f"{len(outcomes) - failed} passed, {failed} failed, {len(chosen) - len(outcomes)} left out", flush=True)
    return 1 if failed else 0 if outcomes else 2


def main():
    known = {program.name: program for program in programs.PROGRAMS}
    parser = argparse.ArgumentParser(description=__doc__, formatter_class=argparse.RawDescriptionHelpFormatter)
    parser.add_argument("--keep", metavar="FOLDER", help="put NAME.native, NAME.exo and NAME.run into a folder")
    parser.add_argument("names", metavar="PROGRAM", nargs="*")
    given = parser.parse_args()
    for name in given.names:
        if name not in known:
            parser.error(f"{name}: no such program; there are {' '.join(known)}")
    chosen = [known[name] for name in dict.fromkeys(given.names or known)]
    signal.signal(signal.SIGTERM, lambda *_: sys.exit(143))
    try:
        with tempfile.TemporaryDirectory() as folder:
            bench = Bench(folder, os.environ.get("PORTED_CACHE"), given.keep)
            sys.exit(compare_all(bench, chosen))
    except KeyboardInterrupt:
        sys.exit(130)
    except BrokenPipeError:
        os.dup2(os.open(os.devnull, os.O_WRONLY), sys.stdout.fileno())
        sys.exit(141)
    except Absent as error:
        print(f"ported.py: {error}", file=sys.stderr)
        sys.exit(2)
    except OSError as error:
        print(f"ported.py: {error.filename}: {error.strerror}", file=sys.stderr)
        sys.exit(2)


if __name__ == "__main__":
    main()
