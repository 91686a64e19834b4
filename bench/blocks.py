#!/usr/bin/env python3
"""Compares the acts on the blocks of a disk with a model of the tree of files that is written apart, from docs/library.md.

    bench/blocks.py [COUNT [SEED]]     COUNT random disks (50 without a word), with 40 random acts on each

The acts are those of block_acts.py, a reading of crates/fs_acts/specs/BlockActs.antt. Behind each act the answer, the bytes that are handed
back and the whole tree are those of the model; between two changes the disk has no fault, and the act that is begun anew there puts what
is left. Behind all acts the program, out/jos, lists and prints what stands on the disk. The last line is 'N passed, N failed'.
"""
import os
import random
import struct
import sys
import tempfile

import block_acts
from disks import BLOCK, DIRECT, LONGEST, Reader, expected, jos, random_disk, random_name, random_size

BAD, NO_ROOM, MISSING, LONG_PATH, EXISTS = (2**32 - error for error in (3, 9, 11, 12, 13))
CREATE, TRUNCATE, EXCLUSIVE = 0x100, 0x200, 0x400


# ---- the model


class Node:
    """A file with its bytes, or a directory with its records, each None or a name and a node."""

    def __init__(self, is_directory, content, indirect=False):
        self.is_directory = is_directory
        self.content = content
        self.indirect = indirect

    def length(self):
        return 256 * len(self.content) if self.is_directory else len(self.content)

    def blocks(self, length=None, indirect=None):
        """The blocks that it takes, or would take with another length and indirect block."""
        length = self.length() if length is None else length
        indirect = self.indirect if indirect is None else indirect
        return -(-length // BLOCK) + indirect

    def seen(self):
        content = [record and (record[0], record[1].seen()) for record in self.content] if self.is_directory else bytes(self.content)
        return self.is_directory, self.indirect, content


def is_long(length):
    return -(-length // BLOCK) > DIRECT


def node_on(reader, place):
    """What a record of a disk says."""
    indirect = reader.indirect(place) != 0
    if reader.kind(place) == 0:
        numbers = [reader.number(place, k) for k in range(-(-reader.size(place) // BLOCK))]
        data = b"".join(reader.data[BLOCK * n : BLOCK * n + BLOCK] for n in numbers)[: reader.size(place)]
        return Node(False, bytearray(data), indirect)
    records = [(reader.name(at), node_on(reader, at)) if reader.data[at] else None for at in reader.records(place)]
    return Node(True, records, indirect)


class Tree:
    """The tree of files of a disk, with the number of blocks that are free."""

    def __init__(self, data):
        reader = Reader(data)
        reader.check()
        self.root = node_on(reader, BLOCK + 8)
        self.free = sum(reader.is_free(block) for block in range(reader.blocks))

    def seen(self):
        return self.root.seen(), self.free

    def change(self, node, length, indirect):
        """Gives a node another length, if there is room."""
        more = node.blocks(length, indirect) - node.blocks()
        if length > LONGEST or more > self.free:
            return False
        self.free -= more
        node.indirect = indirect
        empty = [None] if node.is_directory else bytes(1)
        unit = 256 if node.is_directory else 1
        node.content = node.content[: length // unit] + type(node.content)(empty * (length // unit - len(node.content)))
        return True

    def at(self, way):
        """The node at a way, if there is one."""
        node = self.root
        for place in way:
            if not node.is_directory or place >= len(node.content) or node.content[place] is None:
                return None
            node = node.content[place][1]
        return node

    def look(self, path):
        """A directory, the last name, and the way to what stands there or None; or the error."""
        names = [name for name in path.split(b"/") if name]
        if len(path) > 1023 or any(len(name) > 127 for name in names):
            return LONG_PATH
        node, way = self.root, []
        for k, name in enumerate(names):
            if not node.is_directory:
                return MISSING
            found = [place for place, record in enumerate(node.content) if record and record[0] == name]
            if not found:
                return (node, name, None) if k == len(names) - 1 else MISSING
            way.append(found[0])
            node = node.content[found[0]][1]
        return None, b"", way

    def open_path(self, path, mode):
        found = self.look(path)
        if isinstance(found, int):
            return found, b""
        directory, name, way = found
        if way is None:
            if not mode & CREATE:
                return MISSING, b""
            if None not in directory.content:
                length = directory.length() + BLOCK
                if not self.change(directory, length, directory.indirect or is_long(length)):
                    return NO_ROOM, b""
            directory.content[directory.content.index(None)] = (name, Node(False, bytearray()))
            return 0, b""
        if mode & CREATE and mode & EXCLUSIVE:
            return EXISTS, b""
        if self.at(way).is_directory:
            return BAD, b""
        return self.set_file_size(way, 0) if mode & TRUNCATE else (0, b"")

    def remove_path(self, path, is_open):
        found = self.look(path)
        if isinstance(found, int):
            return found, b""
        way = found[2]
        if way is None:
            return MISSING, b""
        node = self.at(way)
        if node.is_directory or is_open(way):
            return BAD, b""
        self.free += node.blocks()
        self.at(way[:-1]).content[way[-1]] = None
        return 0, b""

    def file(self, way):
        node = self.at(way)
        return None if node is None or node.is_directory else node

    def set_file_size(self, way, size):
        node = self.file(way)
        if node is None:
            return BAD, b""
        return (0 if self.change(node, size, is_long(size)) else NO_ROOM), b""

    def write_file(self, way, at, data):
        node = self.file(way)
        if node is None:
            return BAD, b""
        end = at + len(data)
        if data and end > LONGEST:
            return NO_ROOM, b""
        if data and end > node.length() and not self.change(node, end, node.indirect or is_long(end)):
            return NO_ROOM, b""
        if data:
            node.content[at:end] = data
        return len(data), b""

    def read_file(self, way, at, count):
        node = self.file(way)
        if node is None:
            return BAD, b""
        data = bytes(node.content[at : at + min(count, BLOCK)])
        return len(data), data

    def stat_file(self, way):
        node = self.file(way)
        if node is None:
            return BAD, b""
        name = self.at(way[:-1]).content[way[-1]][0]
        return 0, name.ljust(128, b"\0") + struct.pack("<II", node.length(), 0)

    def act(self, act, is_open):
        kind, *given = act
        if kind == "remove_path":
            return self.remove_path(*given, is_open)
        return getattr(self, kind)(*given)


# ---- random acts


def ways(node, way=()):
    """All ways of a tree, with the paths that lead there."""
    yield list(way), b""
    if node.is_directory:
        for place, record in enumerate(node.content):
            if record:
                for further, path in ways(record[1], way + (place,)):
                    yield further, b"/" + record[0] + path


def random_act(chance, tree):
    known = list(ways(tree.root))
    way, path = chance.choice(known)
    if chance.random() < 0.05:
        way = way + [chance.randrange(20)]
    kind = chance.choice(["open_path", "open_path", "remove_path", "write_file", "write_file", "set_file_size", "read_file", "stat_file"])
    node = tree.at(way)
    length = node.length() if node else 0
    if kind in ("open_path", "remove_path"):
        if chance.random() < 0.5:
            path = path + b"/" + random_name(chance)
        path = chance.choice([path, path, path[1:], path + b"/", path.replace(b"/", b"//"), path + b"/no/where", b"x" * 1024 if chance.random() < 0.1 else path])
        if kind == "remove_path":
            return kind, path
        return kind, path, chance.choice([0, 2, CREATE, CREATE, CREATE, TRUNCATE, CREATE | TRUNCATE, CREATE | EXCLUSIVE])
    if kind == "write_file":
        at = chance.choice([0, length, length // 2, max(length - 3, 0), chance.randrange(50000), LONGEST - 1])
        return kind, way, at, chance.randbytes(chance.choice([0, 1, 5, 200, 4088]))
    if kind == "set_file_size":
        return kind, way, chance.choice([0, 1, length, random_size(chance), 40960, 40961, length + 4096, LONGEST, LONGEST + 1])
    if kind == "read_file":
        return kind, way, chance.choice([0, length // 2, length, chance.randrange(50000)]), chance.choice([0, 1, 300, 5000])
    return kind, way


def try_act(chance, data, tree, is_open):
    """The disk behind a random act, if all is as the model has it."""
    act = random_act(chance, tree)
    answer, handed = tree.act(act, is_open)
    changes, answered, given = block_acts.plan_of(is_open, data, act)
    if (answered, given) != (answer, handed):
        print(act, "answers", hex(answered), given[:8], "and not", hex(answer), handed[:8])
        return None
    now = bytearray(data)
    for k, change in enumerate(changes):
        if len(changes) < 40 or k % 17 == 0:
            Reader(bytes(now)).check()
            left = block_acts.puts_in_turn(changes[k:], now)
            if block_acts.puts_of(is_open, now, act)[0] != left:
                print(act, "begun anew before change", k, "puts something else")
                return None
        block_acts.lay(change(now), now)
    if Tree(bytes(now)).seen() != tree.seen():
        print(act, "leaves another tree")
        return None
    return bytes(now)


def shown(chance, folder, data, tree):
    """Whether the program lists and prints what the model has."""
    with open(os.path.join(folder, "disk"), "wb") as out:
        out.write(data)
    reader = Reader(data)
    known = [path for _, path in ways(tree.root)]
    for path in chance.sample(known, min(6, len(known))):
        # a name may begin as an option does
        if jos(folder, "ls", "disk", b"/" + path) != expected(12, b"not there: ", lambda at=path: reader.listing(at)):
            print("ls", path)
            return False
        if jos(folder, "cat", "disk", b"/" + path) != expected(12, b"not there: ", lambda at=path: reader.file(at)):
            print("cat", path)
            return False
    return True


def case(chance, folder):
    data, _ = random_disk(chance)
    while len(data) > 400 * BLOCK:
        data, _ = random_disk(chance)
    tree = Tree(data)
    for _ in range(40):
        opened = [way for way, _ in ways(tree.root) if chance.random() < 0.1]
        data = try_act(chance, data, tree, lambda way, opened=opened: list(way) in opened)
        if data is None:
            return False
    return shown(chance, folder, data, tree)


def main():
    count = int(sys.argv[1]) if len(sys.argv) > 1 else 50
    seed = int(sys.argv[2]) if len(sys.argv) > 2 else 1
    passed = 0
    with tempfile.TemporaryDirectory() as folder:
        for number in range(seed, seed + count):
            if case(random.Random(number), folder):
                passed += 1
            else:
                print(f"disk {number} failed")
    print(f"{passed} passed, {count - passed} failed")
    sys.exit(passed != count)


if __name__ == "__main__":
    main()
