"""Compares the simulator with the models in model.py and library_model.py, over random programs.

    python3 bench/compare.py [COUNT [SEED]]
    python3 bench/compare.py run [COUNT [SEED]]
    python3 bench/compare.py spawn [COUNT [SEED]]
    python3 bench/compare.py instructions [COUNT [SEED]]

Each of COUNT runs (1,000 without a word) has 1 to 4 images of random calls, reads and writes, which tell at their end
what their answers were and what the windows show, under a random schedule; with `run` it has one program under the
library, of random services, reads and writes, and more often than not with children, on a random disk, with `spawn` always one that starts
files of the disk; with `instructions` one of
random instructions of every kind, which tells its registers and flags behind each few of them, and its pages at its end. Console and notes have
to be the same, and under the library the disk behind the run, byte by byte. What differs is told with its seed, and left in a folder; the status
is then 1. It wants out/jos, which ./jos builds.
"""
import collections
import pathlib
import random
import subprocess
import sys
import tempfile

from disks import BLOCK, Disk, Fault, random_tree
from images import BASE, CODE, image, word
from instruction_programs import InstructionProgram
from library_model import Run
from library_programs import FileProgram, ForkProgram, LibraryProgram, PipeProgram, random_words
from model import EXCEPTION_STACK, Kernel, UENVS, UPAGES, UTOP, UVPT
from spawn_programs import SpawnProgram, children

PROGRAM = pathlib.Path(__file__).resolve().parent.parent / "out" / "jos"
LOG = 0x801000  # where a program keeps its answers
REGISTERS = ["eax", "ecx", "edx", "ebx", "esp", "ebp", "esi", "edi"]

PAGES = [0x900000, 0x901000, 0x902000, 0xA00000, LOG]
ODD_PAGES = [0, 0x3FF000, 0x400000, BASE, 0x802000, 0x900004, 0xD0000000, 0xEEBFD000, 0xEEBFE000, EXCEPTION_STACK,
             EXCEPTION_STACK + 1, UTOP, UPAGES, UVPT + 0x2000, 0xFFFFF000]
BITS = [7, 5, 0x207, 0xE05]
ODD_BITS = [0, 1, 3, 6, 0x25, 0x47, 0x107, 0x407, 0x807, 0x1007]
ODD_IDS = [5, 0x2001, 0x2002, 0x3001, 0x80000000, 0xFFFFFFFF]
WORDS = [LOG, 0xEEBFD000, UENVS, UENVS + 4, UENVS + 76, UPAGES + 4, UPAGES + 204, UVPT + 0x2400, UVPT + 0x2404,
         UVPT + 0x3BD008, UVPT + 0x3BDEEC]
TOLD = [(UENVS, 512), (UPAGES, 512), (UVPT + 0x2000, 4096), (UVPT + 0x3BD000, 4096), (UVPT + 0x3BA000, 4096),
        (0x900000, 16), (0x901000, 16), (0x902000, 16), (EXCEPTION_STACK, 4096)]

# how often a program makes which call: of any kind, with children, with many pages, and as the one that sends words or
# takes them
ANY = {4: 3, 5: 3, 6: 2, 7: 1, 8: 1, 9: 1, 10: 1, 11: 1, 12: 2, 13: 1, 0: 1, 1: 1, 2: 1, 3: 1, 14: 1}
PARENT = {3: 2, 4: 2, 5: 2, 7: 2, 8: 3, 9: 2, 10: 1, 11: 2}
HUNGRY = {4: 6, 5: 1, 6: 1, 7: 1}
SENDER = {4: 2, 5: 1, 11: 3, 12: 6}
TAKER = {4: 1, 5: 1, 11: 1, 13: 4}


class Program:
    """Random code, with where its instructions begin."""

    def __init__(self, chance, count, style):
        self.chance, self.count, self.style = chance, count, style
        self.code, self.begins, self.answers = b"", [], 0

    def add(self, *instructions):
        for instruction in instructions:
            self.begins.append(CODE + len(self.code))
            self.code += instruction

    def log(self):
        """EAX goes to the next place in the log."""
        self.add(b"\xa3" + word(LOG + 4 * self.answers))
        self.answers += 1

    def call(self, number, **registers):
        for name, value in {**registers, "eax": number}.items():
            self.add(bytes([0xB8 + REGISTERS.index(name)]) + word(value))
        self.add(b"\xcd\x30")

    def usually(self, part, these, others):
        return self.chance.choice(these if self.chance.random() < part else others)

    def page(self):
        return self.usually(0.88, PAGES, ODD_PAGES)

    def bits(self):
        return self.usually(0.9, BITS, ODD_BITS)

    def images(self):
        return [0x1000 + slot for slot in range(self.count)]

    def who(self):
        return self.usually(0.85, [0] * (3 * self.count + 4) + self.images() + [0x1000 + self.count], ODD_IDS)

    def place(self):
        return self.usually(0.7, [self.page()], [UTOP, 0xFFFFFFFF])

    def random_call(self):
        chance = self.chance
        number = chance.choices(list(self.style), list(self.style.values()))[0]
        self.call(number, **{
            0: lambda: {"edx": self.page(), "ecx": chance.choice([0, 4, 16, 4096, 4097])},
            3: lambda: {"edx": self.usually(0.5, [self.who()], [0x1000 + self.count, 0x1001 + self.count])},
            4: lambda: {"edx": self.who(), "ecx": self.page(), "ebx": self.bits()},
            5: lambda: {"edx": self.who(), "ecx": self.page(), "ebx": self.who(), "edi": self.page(),
                        "esi": self.bits()},
            6: lambda: {"edx": self.who(), "ecx": self.page()},
            8: lambda: {"edx": self.who(), "ecx": chance.choice([2, 2, 2, 4, 0, 3, 5])},
            9: lambda: {"edx": self.who(), "ecx": self.usually(0.6, [CODE + 2], [LOG, 0x80FFE0, UTOP, 0x900FF0])},
            10: lambda: {"edx": self.who(), "ecx": chance.choice([0xB00000] + self.begins[-20:])},
            12: lambda: {"edx": self.usually(0.9, self.images(), [self.who()]), "ecx": chance.getrandbits(32),
                         "ebx": self.place(), "edi": self.bits()},
            13: lambda: {"edx": self.place(), "ecx": self.usually(0.6, [0], self.images() + [7])},
        }.get(number, dict)())
        self.log()

    def random_access(self):
        chance, kind = self.chance, self.chance.random()
        if kind < 0.4:
            self.add(b"\xa1" + word(self.usually(0.9, WORDS, PAGES) + chance.choice([0, 0, 0, 4, 8, 12])))
            self.log()
        elif kind < 0.9:
            self.add(b"\xb8" + word(chance.getrandbits(32)))
            written = self.usually(0.9, [LOG + 0xF00, 0xEEBFD000], PAGES[:4])
            self.add(b"\xa3" + word(written + chance.choice([0, 4, 20])))
        else:
            across = chance.choice([0x900FFE, 0x900FFF, 0x901FFD, 0xEEBFDFFE, UTOP - 2, UVPT + 0x2FFF, LOG + 0xFFE])
            self.add(chance.choice([b"\xa1", b"\xa3"]) + word(across))

    def build(self):
        """An image: a jump over the 17 words of registers, calls and accesses, and what is told at the end."""
        chance = self.chance
        registers = [chance.getrandbits(32) for _ in range(17)]
        registers[12] = CODE + 2 + 68
        registers[15] = chance.choice([0xEEBFE000, 0xEEBFD800, 0x902000, EXCEPTION_STACK + 0x400])
        self.add(b"\xeb\x44")
        self.code += b"".join(map(word, registers))
        for page in [EXCEPTION_STACK] + PAGES[:3]:
            if chance.random() < 0.5:
                self.call(4, edx=0, ecx=page, ebx=7)
        if chance.random() < 0.3:
            self.call(10, edx=0, ecx=chance.choice([CODE + 2 + 68, 0xB00000]))
        for _ in range(chance.randint(5, 50 if self.style is not TAKER else 8)):
            self.usually(0.75, [self.random_call], [self.random_access])()
        for address, length in [(LOG, 4 * self.answers)] + TOLD:
            if chance.random() < 0.8:
                self.call(0, edx=address, ecx=length)
        self.call(*chance.choice([(3,)] * 5 + [(13,)]), edx=0, ecx=0)
        self.add(chance.choice([b"\xf4", b"\xcc", b"\xeb\xfe"]))
        return image(self.code, chance.choice([0x1800, 0x2000, 0x3000]))


def random_schedule(chance):
    return [chance.randint(1, 30) for _ in range(chance.randint(1, 200))] + [chance.choice([1, 2, 5, 1000])]


def compared(seed, folder, model, notes, words, console_input):
    """What the run of these words ends with, or None where the simulator tells another than the model."""
    run = subprocess.run([PROGRAM, *map(str, words)], input=console_input, capture_output=True, timeout=60)
    if (run.stdout, run.stderr.decode()) == (bytes(model.output), notes):
        return notes.splitlines()[-1].split(" steps")[0]
    print(f"seed {seed} differs, in {folder}: {' '.join(map(str, words))}")
    print(f"the model: {notes}the simulator: {run.stderr.decode()}", end="")
    return None


def compare(seed, folder):
    """What the run ends with, or None where the simulator tells another run than the model."""
    chance = random.Random(seed)
    count = chance.choice([1, 1, 2, 2, 3, 4])
    styles = [chance.choice([ANY, PARENT, HUNGRY]) for _ in range(count)]
    if count > 1 and chance.random() < 0.5:
        styles = [TAKER] + [SENDER] * (count - 1)
    images = [Program(chance, count, style).build() for style in styles]
    frames, steps = chance.choice([64, 64, 70, 80, 100, 200]), chance.choice([777, 3000, 5000])
    traps = chance.choice([0, 1, 5, 1024])
    schedule = random_schedule(chance)
    console_input = chance.randbytes(chance.randint(0, 5))
    names = [folder / f"image{k}" for k in range(count)]
    for name, content in zip(names, images):
        name.write_bytes(content)
    (folder / "schedule").write_text(" ".join(map(str, schedule)))
    model = Kernel(images, frames, console_input, schedule, steps, traps)
    notes = model.notes(model.run())
    options = ["--frames", frames, "--steps", steps, "--trace", traps, "--schedule", folder / "schedule"]
    return compared(seed, folder, model, notes, ["exo", *options, *names], console_input)


def random_files(chance):
    """A disk on which files are laid out, and there is room for an image; the records of its root, and all paths."""
    while True:
        disk = Disk(chance.choice([64, 300, 1200]), chance.choice([min, max, lambda free: chance.choice(list(free))]))
        try:
            records, paths = random_tree(chance, disk, chance.choice([0, 1, 1, 1]))
        except Fault:
            continue
        if len(disk.free) > 40:
            return disk, records, paths


def with_children(disk, records, paths, images):
    """Records and paths with those of images, as many as the disk has room for."""
    more = b""
    for name, content in images.items():
        if len(disk.free) > 20 + len(content) // BLOCK:
            more += disk.record(name, content, 0)
            paths = [*paths, name]
    return records + more.ljust(-(-len(more) // BLOCK) * BLOCK, b"\0"), paths


def with_image(disk, records, content):
    """The disk with an image in its root, behind the other records."""
    return disk.finish(disk.record(b"/", records + disk.record(b"image", content, 0).ljust(BLOCK, b"\0"), 1))


def compare_library(seed, folder, kind=None):
    """The same of a program under the library, which stands on a disk, and may start others that stand there."""
    chance = random.Random(seed)
    kind = chance.choice([LibraryProgram, ForkProgram, FileProgram, PipeProgram, SpawnProgram] if kind is None else [kind])
    forks = kind is not LibraryProgram
    disk, records, paths = random_files(chance)
    if kind is SpawnProgram:
        records, paths = with_children(disk, records, paths, children(chance))
    program = kind(chance, paths)
    content = program.build()
    frames = Run.wanted_frames(content) + chance.choice([0, 1, 20, 60, 500])
    steps, traps = chance.choice([3000, 60000, 200000] if forks else [777, 3000, 20000, 60000]), chance.choice([0, 1, 1024])
    schedule, given = random_schedule(chance), random_words(chance)
    console_input = bytes(chance.choice([4, 0, 10, 255, *range(32, 127)]) for _ in range(chance.choice([0, 1, 2, 5, 20])))
    if kind is PipeProgram:
        frames, steps = frames + chance.choice([0, 100, 500, 500]), chance.choice([20000, 60000, 200000])
    if kind in (PipeProgram, SpawnProgram) and chance.random() < 0.7:
        # so that the end of a pipe is seen
        schedule = [max(each, 16) for each in schedule]
    if kind is SpawnProgram:
        frames, steps = frames + chance.choice([0, 20, 60, 100, 500]), chance.choice([60000, 300000, 1000000])
    if kind is FileProgram:
        frames, steps = frames + chance.choice([0, 500, 500, 500]), chance.choice([20000, 200000, 1000000])
    if forks and program.fills_table:
        frames, steps, schedule = frames + 5000, 5000000, schedule + [1000]
    return compared_on_disk(seed, folder, with_image(disk, records, content), content, given, frames, console_input, schedule, steps, traps)


def compared_on_disk(seed, folder, data, content, given, frames, console_input, schedule, steps, traps):
    """The same of an image that stands on a disk, and is given these words; the disk behind the run is compared, too."""
    words = ["image", *given]
    (folder / "disk").write_bytes(data)
    (folder / "schedule").write_text(" ".join(map(str, schedule)))
    model = Run(data, content, [str(each).encode() for each in words], frames, console_input, schedule, steps, traps)
    end = model.run()
    left = model.finish()
    words.insert(0, folder / "disk")
    options = ["--frames", frames, "--steps", steps, "--trace", traps, "--schedule", folder / "schedule"]
    told = compared(seed, folder, model, model.notes(end), ["run", *options, "--", *words], console_input)
    if told is not None and (folder / "disk").read_bytes() != left:
        print(f"seed {seed}: the disk differs, in {folder}: {' '.join(map(str, words))}")
        (folder / "left").write_bytes(left)
        return None
    return told


def compare_instructions(seed, folder):
    """The same of a program of random instructions."""
    chance = random.Random(seed)
    content = InstructionProgram(chance).build()
    frames = Run.wanted_frames(content) + chance.choice([20, 100])
    steps, traps = chance.choice([5000, 50000, 100000, 200000, 200000]), chance.choice([1, 1024])
    schedule = random_schedule(chance)
    return compared_on_disk(seed, folder, with_image(Disk(64), b"", content), content, [], frames, b"", schedule, steps, traps)


def main():
    numbers = sys.argv[1:]
    compare_one = compare
    kinds = {"run": compare_library, "spawn": lambda *words: compare_library(*words, SpawnProgram), "instructions": compare_instructions}
    if numbers[:1] and numbers[0] in kinds:
        compare_one = kinds[numbers.pop(0)]
    count = int(numbers[0]) if numbers else 1000
    first = int(numbers[1]) if len(numbers) > 1 else 0
    ends = collections.Counter()
    with tempfile.TemporaryDirectory() as folder:
        for seed in range(first, first + count):
            end = compare_one(seed, pathlib.Path(folder))
            if end is None:
                kept = pathlib.Path(tempfile.mkdtemp(prefix=f"compare-{seed}-"))
                compare_one(seed, kept)
            ends[end or "differs"] += 1
    print(", ".join(f"{end} {number}" for end, number in sorted(ends.items())))
    return 1 if ends["differs"] else 0


if __name__ == "__main__":
    sys.exit(main())
