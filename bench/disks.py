#!/usr/bin/env python3
"""Compares disks of the program with those of a model that is written apart, from docs/disk.md.

    bench/disks.py [COUNT [SEED]]     makes COUNT random cases (200 without a word)
    bench/disks.py --write KIND FILE  writes a disk: `deep` (8,000 directories in one another) or `wide` (16,544 records)

A case is one of: files that `mkfs` puts on a disk, byte by byte, or the fault that it tells; a disk of directories in one
another that the model makes, listed and read by `ls` and `cat` with random paths; such a disk with some words changed, of
which the fault is told. The program is out/jos. The last line is 'N passed, N failed'.
"""
import os
import random
import struct
import subprocess
import sys
import tempfile

TOP = os.path.dirname(os.path.dirname(os.path.abspath(__file__)))
JOS = os.path.join(TOP, "out", "jos")
BLOCK = 4096
MAGIC = 0x4A0530AE
DIRECT = 10
INDIRECT = 1024
LONGEST = (DIRECT + INDIRECT) * BLOCK


class Fault(Exception):
    """Why bytes are no disk, or why none is made."""


def words(count, values):
    return struct.pack(f"<{count}I", *values, *[0] * (count - len(values)))


class Disk:
    """A disk that is laid out, each block taken from anywhere among those that are free."""

    def __init__(self, blocks, pick=min):
        self.blocks = blocks
        self.pick = pick
        self.bytes = bytearray(BLOCK * blocks)
        self.bitmap_blocks = -(-blocks // (8 * BLOCK))
        self.free = set(range(2 + self.bitmap_blocks, blocks))

    def take(self):
        if not self.free:
            raise Fault("no room")
        block = self.pick(self.free)
        self.free.remove(block)
        return block

    def put(self, data):
        """The numbers of the blocks of some bytes, and of the indirect block or 0."""
        numbers, indirect = [], 0
        for k in range(-(-len(data) // BLOCK)):
            if k == DIRECT:
                indirect = self.take()
            number = self.take()
            self.bytes[number * BLOCK : number * BLOCK + BLOCK] = data[k * BLOCK : k * BLOCK + BLOCK].ljust(BLOCK, b"\0")
            numbers.append(number)
        if indirect:
            self.bytes[indirect * BLOCK : indirect * BLOCK + BLOCK] = words(INDIRECT, numbers[DIRECT:])
        return numbers[:DIRECT], indirect

    def record(self, name, data, kind):
        direct, indirect = self.put(data)
        return name.ljust(128, b"\0") + words(2, [len(data), kind]) + words(DIRECT, direct) + words(1, [indirect]) + bytes(76)

    def finish(self, root):
        self.bytes[BLOCK : BLOCK + 8] = words(2, [MAGIC, self.blocks])
        self.bytes[BLOCK + 8 : BLOCK + 8 + 256] = root
        for block in range(8 * BLOCK * self.bitmap_blocks):
            if block >= self.blocks or block in self.free:
                self.bytes[2 * BLOCK + block // 8] |= 1 << block % 8
        return bytes(self.bytes)


def made(blocks, files):
    """What `mkfs` writes."""
    if not 4 <= blocks <= 16384:
        raise Fault("too many blocks")
    names = [name for name, _ in files]
    for place, name in enumerate(names):
        if not 0 < len(name) < 128 or b"/" in name:
            raise Fault(f"bad name {place}")
    for place, name in enumerate(names):
        if name in names[:place]:
            raise Fault(f"twice named {place}")
    for place, (_, data) in enumerate(files):
        if len(data) > LONGEST:
            raise Fault(f"too long {place}")
    disk = Disk(blocks)
    size = BLOCK * -(-len(files) // 16)
    if size > LONGEST:
        raise Fault("no room")
    # the root's blocks are the first; its records are known when the files are laid out
    direct, indirect = disk.put(bytes(size))
    records = b"".join(disk.record(name, data, 0) for name, data in files).ljust(size, b"\0")
    numbers = list(direct)
    if indirect:
        numbers += struct.unpack("<1024I", disk.bytes[indirect * BLOCK : indirect * BLOCK + BLOCK])[: size // BLOCK - DIRECT]
    for place, number in enumerate(numbers):
        disk.bytes[number * BLOCK : number * BLOCK + BLOCK] = records[place * BLOCK : place * BLOCK + BLOCK]
    root = b"/".ljust(128, b"\0") + words(2, [size, 1]) + words(DIRECT, direct) + words(1, [indirect]) + bytes(76)
    return disk.finish(root)


# ---- a disk that is read


class Reader:
    """Bytes as a disk: the tests, and what a path leads to."""

    def __init__(self, data):
        self.data = data
        self.blocks = self.word(BLOCK + 4)

    def word(self, at):
        return struct.unpack("<I", self.data[at : at + 4].ljust(4, b"\0"))[0]

    def name(self, place):
        return self.data[place : place + 128].split(b"\0")[0]

    def size(self, place):
        return self.word(place + 128)

    def kind(self, place):
        return self.word(place + 132)

    def indirect(self, place):
        return self.word(place + 176)

    def number(self, place, k):
        if k < DIRECT:
            return self.word(place + 136 + 4 * k)
        return self.word(BLOCK * self.indirect(place) + 4 * (k - DIRECT))

    def records(self, directory):
        for k in range(self.size(directory) // 256):
            yield BLOCK * self.number(directory, k // 16) + 256 * (k % 16)

    def is_free(self, block):
        return self.data[2 * BLOCK + block // 8] >> block % 8 & 1 == 1

    def check(self):
        if len(self.data) < 3 * BLOCK or len(self.data) < BLOCK * self.blocks:
            raise Fault("too short")
        if self.word(BLOCK) != MAGIC:
            raise Fault("magic")
        if not 4 <= self.blocks <= 16384:
            raise Fault("block count")
        if self.kind(BLOCK + 8) != 1:
            raise Fault("root kind")
        self.first = 2 + -(-self.blocks // (8 * BLOCK))
        self.named = set()
        self.record(BLOCK + 8)
        self.contents(BLOCK + 8)
        for block in range(self.first):
            if self.is_free(block):
                raise Fault(f"marked free {block}")

    def block(self, place, number):
        if number == 0:
            raise Fault(f"hole {place}")
        if not self.first <= number < self.blocks:
            raise Fault(f"range {number}")
        if number in self.named:
            raise Fault(f"named twice {number}")
        if self.is_free(number):
            raise Fault(f"marked free {number}")
        self.named.add(number)

    def record(self, place):
        size = self.size(place)
        if self.kind(place) == 1 and size % BLOCK:
            raise Fault(f"dir size {place}")
        if size > LONGEST:
            raise Fault(f"too long {place}")
        count = -(-size // BLOCK)
        for k in range(min(count, DIRECT)):
            self.block(place, self.number(place, k))
        if count > DIRECT or self.indirect(place):
            self.block(place, self.indirect(place))
        for k in range(DIRECT, count):
            self.block(place, self.number(place, k))
        if any(self.number(place, k) for k in range(count, DIRECT)):
            raise Fault(f"stray {place}")
        if self.indirect(place) and any(self.number(place, k) for k in range(max(count, DIRECT), DIRECT + INDIRECT)):
            raise Fault(f"stray {place}")

    def contents(self, directory):
        seen = set()
        for place in self.records(directory):
            if self.data[place] == 0:
                continue
            if self.kind(place) > 1:
                raise Fault(f"kind {place}")
            name = self.name(place)
            if len(name) > 127 or b"/" in name:
                raise Fault(f"bad name {place}")
            self.record(place)
            if name in seen:
                raise Fault(f"same name {place}")
            seen.add(name)
            if self.kind(place) == 1:
                self.contents(place)

    def look(self, path):
        names = [name for name in path.split(b"/") if name]
        if len(path) > 1023 or any(len(name) > 127 for name in names):
            raise Fault("12")
        place = BLOCK + 8
        for name in names:
            if self.kind(place) != 1:
                raise Fault("11")
            found = [other for other in self.records(place) if self.name(other) == name]
            if not found:
                raise Fault("11")
            place = found[0]
        return place

    def listing(self, path):
        place = self.look(path)
        if self.kind(place) != 1:
            raise Fault("3")
        lines = []
        for record in self.records(place):
            if self.data[record]:
                name = self.name(record)
                lines.append(name + (b"/" if self.kind(record) == 1 else b" %d" % self.size(record)) + b"\n")
        return b"".join(lines)

    def file(self, path):
        place = self.look(path)
        if self.kind(place) != 0:
            raise Fault("3")
        size = self.size(place)
        numbers = [self.number(place, k) for k in range(-(-size // BLOCK))]
        return b"".join(self.data[number * BLOCK : number * BLOCK + BLOCK] for number in numbers)[:size]


# ---- cases


def jos(folder, *arguments):
    done = subprocess.run([JOS, *arguments], cwd=folder, stdin=subprocess.DEVNULL, capture_output=True, check=False)
    return done.returncode, done.stdout, done.stderr


def expected(status, before, act):
    """What the program is to answer by what an act of the model gives."""
    try:
        data = act()
    except Fault as fault:
        return status, b"", before + str(fault).encode() + b"\n"
    return 0, data, b"made %d\n" % len(data)


def random_name(chance):
    length = chance.choice([1, 1, 1, 2, 3, 8, 127, 128])
    return bytes(chance.choice(b"abcxyz.") for _ in range(length))


def random_size(chance):
    return chance.choice([0, 1, 3, 4095, 4096, 4097, 40959, 40960, 40961, 45056, 90000, chance.randrange(20000)])


def make_case(chance, folder):
    files, arguments = [], []
    for place in range(chance.choice([0, 1, 2, 3, 5, 16, 17, 40])):
        name = random_name(chance)
        if len(name) > 127 and chance.random() < 0.8:
            name = name[:100] + str(place).encode()
        elif chance.random() < 0.7:
            name += str(place).encode()
        # the host has folders of these names
        if name in (b".", b".."):
            name += b"x"
        data = chance.randbytes(random_size(chance) if chance.random() < 0.5 else chance.randrange(300))
        way = os.path.join(folder, f"f{place}")
        os.makedirs(way, exist_ok=True)
        with open(os.path.join(way.encode(), name), "wb") as out:
            out.write(data)
        files.append((name, data))
        arguments.append(f"f{place}/".encode() + name)
    blocks = chance.choice([4, 5, 8, 16, 64, 100, 500, 16384])
    status, console, note = jos(folder, "mkfs", "disk", str(blocks), "--", *arguments)
    wanted = expected(13, b"cannot make: ", lambda: made(blocks, files))
    if wanted[0]:
        return (status, console, note) == wanted
    with open(os.path.join(folder, "disk"), "rb") as disk:
        return (status, console, note) == (0, b"", wanted[2]) and disk.read() == wanted[1]


def random_tree(chance, disk, depth):
    """The records of a directory of random files and directories, some of them empty records."""
    records, names = [], []
    for place in range(chance.choice([0, 1, 2, 5, 20]) if depth else chance.choice([1, 3, 20, 180])):
        if chance.random() < 0.2:
            records.append(bytes(256))
            continue
        name = random_name(chance)[:120] + str(place).encode()
        names.append(name)
        if chance.random() < 0.3 and depth < 4:
            below, inner = random_tree(chance, disk, depth + 1)
            records.append(disk.record(name, below, 1))
            names += [name + b"/" + other for other in inner]
        else:
            records.append(disk.record(name, chance.randbytes(random_size(chance) if chance.random() < 0.2 else chance.randrange(300)), 0))
    data = b"".join(records)
    return data.ljust(-(-len(data) // BLOCK) * BLOCK, b"\0"), names


def random_disk(chance):
    while True:
        disk = Disk(chance.choice([16, 64, 300, 1200]), chance.choice([min, max, lambda free: chance.choice(list(free))]))
        try:
            data, names = random_tree(chance, disk, 0)
            return disk.finish(disk.record(b"/", data, 1)), names
        except Fault:
            continue


def read_case(chance, folder):
    data, names = random_disk(chance)
    if chance.random() < 0.2:
        data += chance.randbytes(chance.choice([1, 4096, 5000]))
    with open(os.path.join(folder, "disk"), "wb") as out:
        out.write(data)
    reader = Reader(data)
    reader.check()
    for _ in range(6):
        path = chance.choice(names) if names and chance.random() < 0.8 else random_name(chance)
        path = chance.choice([path, b"/" + path, path + b"/", path.replace(b"/", b"//"), path + b"/x", path + b"q", b"", b"/"])
        if b"\0" in path or path.startswith(b"-"):
            continue
        if jos(folder, "ls", "disk", path) != expected(12, b"not there: ", lambda: reader.listing(path)):
            print("ls", path)
            return False
        if jos(folder, "cat", "disk", path) != expected(12, b"not there: ", lambda: reader.file(path)):
            print("cat", path)
            return False
    return True


def changed_case(chance, folder):
    data, _ = random_disk(chance)
    data = bytearray(data)
    reader = Reader(bytes(data))
    reader.check()
    places, directories = [BLOCK + 8], [BLOCK + 8]
    for directory in directories:
        for place in reader.records(directory):
            places.append(place)
            if data[place] and reader.kind(place) == 1:
                directories.append(place)
    for _ in range(chance.choice([1, 1, 1, 2, 3])):
        place = chance.choice(places)
        at = place + chance.choice([0, 1, 100, 127, 128, 129, 132, 136, 140, 172, 176, 200])
        if reader.indirect(place) and chance.random() < 0.3:
            at = BLOCK * reader.indirect(place) + 4 * chance.randrange(INDIRECT)
        if chance.random() < 0.2:
            at = chance.choice([BLOCK, BLOCK + 4, BLOCK + 140, 2 * BLOCK, 2 * BLOCK + 4, 2 * BLOCK + 8])
        other = chance.choice([0, 1, 2, 3, 4, 5, 15, 16, 20, 0x2F61, 0x61, 4096, 8192, 5000, LONGEST, LONGEST + 1, 2**31, 2**32 - 1, chance.randrange(1200)])
        data[at : at + 4] = words(1, [other])
    data = bytes(data)
    if chance.random() < 0.1:
        data = data[: chance.choice([0, 100, 4096, 8192, 12287, 12288, len(data) - 1])]
    with open(os.path.join(folder, "disk"), "wb") as out:
        out.write(data)
    reader = Reader(data)
    try:
        reader.check()
    except Fault as fault:
        wanted = 6, b"", b"bad disk: " + str(fault).encode() + b"\n"
    else:
        wanted = expected(12, b"not there: ", lambda: reader.listing(b""))
    answer = jos(folder, "ls", "disk")
    if answer != wanted:
        print("changed", answer, wanted)
    return answer == wanted


def written(kind):
    """A disk that is dear to check."""
    disk = Disk(16384)
    if kind == "deep":
        block, inner = None, b""
        for _ in range(8000):
            inner = disk.record(b"d", inner, 1).ljust(BLOCK, b"\0")
        return disk.finish(disk.record(b"/", inner, 1))
    empty = bytes(128) + words(2, [0, 0]) + bytes(120)
    records = b"".join(b"record%d" % place + empty[len(b"record%d" % place) :] for place in range(16544))
    return disk.finish(disk.record(b"/", records, 1))


def main():
    if sys.argv[1:2] == ["--write"]:
        with open(sys.argv[3], "wb") as out:
            out.write(written(sys.argv[2]))
        return 0
    count = int(sys.argv[1]) if len(sys.argv) > 1 else 200
    seed = int(sys.argv[2]) if len(sys.argv) > 2 else 1
    passed = failed = 0
    for number in range(count):
        chance = random.Random(f"{seed} {number}")
        case = [make_case, read_case, changed_case, changed_case][number % 4]
        with tempfile.TemporaryDirectory() as folder:
            if case(chance, folder):
                passed += 1
            else:
                failed += 1
                print(f"FAILED: {case.__name__} {number} of seed {seed}")
    print(f"{passed} passed, {failed} failed")
    return 1 if failed else 0


if __name__ == "__main__":
    sys.setrecursionlimit(100000)
    sys.exit(main())
