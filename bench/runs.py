"""Runs, as the tools in examples/ make them: by the words of `./jos exo` and `./jos run`, by the program and by the models.

A tool has options of its own, and behind them the words of a run as ./jos takes them. `Words` reads these, where the program has taken
them; `by_program` makes the run, and ends the tool with the program's note and status where it makes none; `by_model` makes it by the
model of the command, whose turns and steps a `Watcher` sees. DISK stays as it is: each run is of a copy.
"""
import itertools
import os
import pathlib
import re
import shutil
import subprocess
import sys
import tempfile
import time
from dataclasses import dataclass, field

from disks import Reader
from library_model import Run
from model import QUANTUM, Kernel

TOP = pathlib.Path(__file__).resolve().parent.parent
LAUNCHER = TOP / "jos"
PROGRAM = TOP / "out" / "jos"
OPTIONS = ("frames", "steps", "schedule", "trace")
FRAMES, STEPS, TRACE_MAX = 16384, 100000000, 1024
LOOK = 65536  # steps of a long turn between two looks at the clock
RUN_STATUSES = {"done": 0, "stuck": 9, "budget": 10, "turns full": 11}
NOTE = re.compile(r"(done|stuck|budget|turns full) steps (\d+) turns (\d+) refused (\d+) upcalls (\d+)")
TRAP = re.compile(r"\[[0-9a-f]{8}\] trap .*")


@dataclass
class Words:
    """The words of a run: the command, its options by name, and its positional words; and all as they were given, each
    word beside the name of the option that it belongs to."""

    command: str
    options: dict
    rest: list
    given_words: list

    @staticmethod
    def read(words):
        """The words as the command reads them, where it takes them: an option has its value behind a `=`, or in the next word. Those of
        no run end the tool, with the program's note where they are none of its words."""
        if words[:1] not in (["exo"], ["run"]):
            sys.exit("give the words of a run, as ./jos takes them: exo [OPTIONS] IMAGE.., or run [OPTIONS] DISK PATH [WORD..]")
        options, rest, given, coming = {}, [], [], iter(words[1:])
        for word in coming:
            if word == "--":
                rest += (behind := list(coming))
                given += [(word, word), *((other, None) for other in behind)]
            elif word.startswith("--"):
                name, equals, value = word[2:].partition("=")
                own = [word] if equals else [word, *itertools.islice(coming, 1)]
                options[name] = value if equals else own[1] if own[1:] else ""
                given += [(other, name) for other in own]
            else:
                rest.append(word)
                given.append((word, None))
        return Words(words[0], options, rest, given)

    def given(self, disk=None, **changed):
        """The words as they are handed to the program, with some options changed, None leaving one out, and with another
        DISK. All others are as they were given, so that the program refuses what ./jos refuses."""
        words = [(word, name) for word, name in self.given_words if name not in changed]
        if disk is not None:
            words[words.index((self.rest[0], None))] = disk, None
        options = [f"--{name}={value}" for name, value in changed.items() if value is not None]
        return [self.command, *options, *(word for word, _ in words)]

    def number(self, name, otherwise):
        return int(self.options.get(name, otherwise))

    def schedule(self):
        """The lengths of turns."""
        name = self.options.get("schedule")
        numbers = [int(word) for word in pathlib.Path(name).read_text(encoding="ascii").split()] if name else []
        return numbers or [QUANTUM]


@dataclass
class Told:
    """What a run tells: its console, its traps, its last note, and the numbers in that."""

    console: bytes
    traps: list
    note: str
    end: str = ""
    steps: int = 0
    turns: int = 0
    status: int = 0
    disk: bytes = field(default=b"", repr=False)

    def __post_init__(self):
        found = NOTE.fullmatch(self.note)
        if found:
            self.end, self.steps, self.turns = found[1], int(found[2]), int(found[3])


def build():
    """Has the launcher build the program, where there is none of these sources. Without words its note is the usage."""
    with subprocess.Popen([LAUNCHER], stdin=subprocess.DEVNULL, stderr=subprocess.PIPE, text=True) as launcher:
        for line in launcher.stderr:
            if not line.startswith("usage: "):
                print(line, end="", file=sys.stderr)


def console_input():
    """The input of a run: standard input whole, and none at a terminal."""
    return b"" if sys.stdin is None or sys.stdin.isatty() else sys.stdin.buffer.read()


def told_by_program(words, data, **changed):
    """What the program tells of a run, or of why it makes none. Of `run`, DISK is a copy."""
    if words.command != "run" or not words.rest or not os.path.isfile(words.rest[0]):
        return _told(words.given(**changed), data)
    with tempfile.TemporaryDirectory() as folder:
        disk = os.path.join(folder, "disk")
        shutil.copyfile(words.rest[0], disk)
        told = _told(words.given(disk, **changed), data)
        told.note = told.note.replace(disk, words.rest[0])
        told.disk = pathlib.Path(disk).read_bytes()
    return told


def _told(given, data):
    made = subprocess.run([PROGRAM, *given], input=data, capture_output=True, check=False)
    *traps, note = made.stderr.decode(errors="replace").splitlines() or [""]
    return Told(made.stdout, [line for line in traps if TRAP.fullmatch(line)], note, status=made.returncode)


def by_program(words, data, **changed):
    """What the run tells, with all traps that the program lists. Where there is none, its note and its status are the tool's own."""
    if words.options.get("trace", "0").isdecimal():
        changed["trace"] = TRACE_MAX
    told = told_by_program(words, data, **changed)
    if not told.end:
        sys.stdout.buffer.write(told.console)
        sys.stdout.flush()
        print(told.note, file=sys.stderr)
        sys.exit(told.status or 1)
    return told


class Watcher:
    """Who sees a run of a model. `run` is the model, with `now`, the environment that has the turn, `steps` and `turns`, which count."""

    def turn_begins(self, run, length):
        """A turn of so many steps at most begins."""

    def before(self, run):
        """The next step is made, by `run.now`."""

    def after(self, run, environment):
        """It was made, by this environment, which may have ended by it."""

    def message(self, run, receiver, value):
        """In this step `run.now` has sent a word to the environment of this id."""

    def made(self, run, child):
        """In this step `run.now` has made a child."""

    def gone(self, run, environment):
        """In this step an environment has ended."""


class Progress(Watcher):
    """Says on standard error, where that is a terminal, how far a run is of which the number of steps is known."""

    def __init__(self, name, steps):
        self.name, self.steps, self.said = name, steps, 0.0
        self.speaks, self.stands = sys.stderr.isatty(), False

    def turn_begins(self, run, length):
        self.comes(run)

    def before(self, run):
        if not run.steps % LOOK:
            self.comes(run)

    def comes(self, run):
        if self.speaks and time.monotonic() - self.said > 0.5:
            self.said, self.stands = time.monotonic(), True
            print(f"\r{self.name}: {100 * run.steps // max(self.steps, 1)}% of {self.steps:,} steps ", end="", file=sys.stderr, flush=True)

    def ends(self):
        """The line is cleared, where it stands."""
        if self.stands:
            self.stands = False
            print("\r" + " " * 60 + "\r", end="", file=sys.stderr, flush=True)


def watched(model, watcher):
    """The class of a model, which has a watcher."""

    class Watched(model):
        def make(self, parent):
            made = super().make(parent)
            if parent and not isinstance(made, int):
                watcher.made(self, made)
            return made

        def destroy(self, gone):
            super().destroy(gone)
            watcher.gone(self, gone)

        def sends(self, answer, receiver, value):
            if answer == 0:
                watcher.message(self, receiver or self.now.id, value)
            return answer

        def ipc_try_send(self, identity, value, address, bits):
            return self.sends(super().ipc_try_send(identity, value, address, bits), identity, value)

        def try_to_send(self, identity, value, va):
            return self.sends(super().try_to_send(identity, value, va), identity, value)

        def turn(self, slot):
            self.now = self.slots[slot]
            watcher.turn_begins(self, self.schedule[min(self.turns, len(self.schedule) - 1)])
            return super().turn(slot)

        def step(self):
            environment = self.now
            watcher.before(self)
            super().step()
            watcher.after(self, environment)

    return Watched


def by_model(words, data, watcher, steps=None):
    """The model behind a run, which the watcher saw, and its end. The run makes so many steps at most, or those of the words."""
    frames, budget = words.number("frames", FRAMES), words.number("steps", STEPS) if steps is None else steps
    schedule = words.schedule()
    if words.command == "exo":
        images = [pathlib.Path(name).read_bytes() for name in words.rest]
        run = watched(Kernel, watcher)(images, frames, data, schedule, budget, TRACE_MAX)
    else:
        disk, programs_words = pathlib.Path(words.rest[0]).read_bytes(), [os.fsencode(word) for word in words.rest[1:]]
        image = Reader(disk).file(programs_words[0])
        run = watched(Run, watcher)(disk, image, programs_words, frames, data, schedule, budget, TRACE_MAX)
    return run, run.run()


def difference(told, run, end):
    """Where the program and the model tell other runs, in words, or None. The file server of `run` comes to its act
    before."""
    disk = run.finish() if told.disk else b""
    *traps, note = run.notes(end).splitlines()
    if told.note != note:
        return f"the program ends with '{told.note}', and the model with '{note}'"
    if told.console != bytes(run.output):
        return "the console of the model is another one"
    if told.traps != traps:
        return "the model lists other traps"
    if told.disk != disk:
        return "DISK is another behind the run of the model"
    return None


def guarded(main):
    """Runs a tool's main function. An interrupt, and a reader who has gone away, end it without a word."""
    # where it was closed before
    sys.stdout = sys.stdout or open(os.devnull, "w", encoding="utf-8")
    try:
        main()
        sys.stdout.flush()
    except KeyboardInterrupt:
        sys.exit(130)
    except BrokenPipeError:
        # what is left in the buffer would fail once more at the end
        os.dup2(os.open(os.devnull, os.O_WRONLY), sys.stdout.fileno())
        sys.exit(141)
