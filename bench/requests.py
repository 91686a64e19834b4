#!/usr/bin/env python3
"""Compares the file server, as crates/fs_server makes its steps request by request, with a model of the files and of who has which open.

    bench/requests.py [COUNT [SEED]]     COUNT random disks (10 without a word), with 80 random acts of clients on each

The server and its clients are those of the program crates/server_tests as it is built from its sources, which reads what the clients do
from its input (`cd crates/server_tests && rt run </dev/null` builds it). Two or three clients open, read, write and remove files, share
descriptors, close them, end and begin anew; some wait for their replies late. In every second case the server has a few pages for its
blocks and no more. Each answer, the bytes that are handed back, the offsets, the sizes at the open and how many steps are seen are those
of the model: the tree of files of blocks.py with the table of open files here. Behind a sync the host's file is, byte by byte, the disk
that the acts on blocks leave (block_acts.py), and the program, out/jos, lists and prints what stands on it. The last line is
'N passed, N failed'.
"""
import os
import random
import sys
import tempfile

import block_acts
import blocks
import jobs
from disks import BLOCK, LONGEST, random_disk, random_name, random_size

jobs.PROGRAM = os.path.join(os.path.dirname(os.path.abspath(__file__)), "..", "crates", "server_tests", "out", "server_tests")
BAD, MAX_OPEN = 2**32 - 3, 2**32 - 10
PLACES = 1024
DESCRIPTORS = 6
MOST_OFFSET = 2**31 - 1


class Object:
    """What descriptors name: the file at a way, with an offset, a mode and the size that it had when it was opened, at a place of the table
    of open files."""

    def __init__(self, way, mode, place, size):
        self.way = way
        self.mode = mode
        self.place = place
        self.size = size
        self.offset = 0

    def told(self):
        """The words of its page."""
        return f"66 {self.offset:x} {self.mode:x} {self.place:x} {self.size:x}"


class Model:
    """The files, and each client's descriptors."""

    def __init__(self, data, clients):
        self.data = data
        self.tree = blocks.Tree(data)
        self.clients = {slot: {} for slot in range(1, clients + 1)}

    def held(self):
        return [item for descriptors in self.clients.values() for item in descriptors.values()]

    def is_open(self, way):
        return any(item.way == list(way) for item in self.held())

    def act(self, act):
        """An act on the files: what it answers and hands back."""
        answer, handed = self.tree.act(act, self.is_open)
        changes, answered, given = block_acts.plan_of(self.is_open, self.data, act)
        assert (answered, given) == (answer, handed)
        self.data = bytes(block_acts.written(block_acts.puts_in_turn(changes, self.data), self.data))
        return answer, handed

    def open_path(self, client, fd, mode, path):
        """The answer, and how many places are looked at."""
        taken = {item.place for item in self.held()}
        place = next((k for k in range(PLACES) if k not in taken), None)
        if place is None:
            return MAX_OPEN, PLACES - 1
        answer, _ = self.act(("open_path", path, mode))
        if answer == 0:
            way = self.tree.look(path)[2]
            self.clients[client][fd] = Object(way, mode % 4, place, self.tree.at(way).length())
        return answer, place + 1

    def read(self, item, count):
        answer, handed = self.act(("read_file", item.way, item.offset, count))
        item.offset += answer
        return answer, handed

    def read_at(self, item, count, place):
        if place >= 2**31:
            return BAD, b""
        return self.act(("read_file", item.way, place, count))

    def write(self, item, data):
        answer, _ = self.act(("write_file", item.way, item.offset, data))
        if answer < 2**31:
            item.offset += answer
        return answer

    def length(self, item):
        return self.tree.at(item.way).length()


# ---- random acts of clients


def random_path(chance, tree):
    known = list(blocks.ways(tree.root))
    path = chance.choice([path for way, path in known if tree.file(way) is not None or chance.random() < 0.2] or [b""])
    if chance.random() < 0.3:
        path = path + b"/" + random_name(chance)
    other = b"x" * 1024 if chance.random() < 0.1 else path
    return chance.choice([path, path, path, path[1:], path + b"/", path.replace(b"/", b"//"), path + b"/no/where", other])


def put_request(script, chance, line, wanted, seen):
    """A request: some clients wait late. How many of its steps are seen."""
    if chance.random() < 0.1:
        script.say(f"late {chance.choice([0, 3, 50, 700, chance.randrange(6000)]):x} 0", "done")
    script.say(line, wanted)
    script.say("seen", f"{seen:x}")


def put_file_act(script, chance, model, client, fd):
    """A request about a descriptor, which may not be open."""
    kinds = ["read", "read", "read", "read_at", "write", "write", "write", "write", "seek", "seek", "size", "stat", "share", "share", "close"]
    kind = chance.choice(kinds)
    item = model.clients[client].get(fd)
    if item is None:
        script.say(f"stat {client:x} {fd:x}", "no descriptor")
        return
    length = model.length(item)
    of = f"{client:x} {fd:x}"
    if kind == "read":
        count = chance.choice([0, 1, 5, 300, 4096, 5000, 2**32 - 1])
        answer, handed = model.read(item, count)
        put_request(script, chance, f"read {of} {count:x}", f"{answer:x} {handed.hex()}".strip(), 2)
    elif kind == "read_at":
        count = chance.choice([0, 1, 5, 300, 4096, 5000, 2**32 - 1])
        place = chance.choice([0, length, length // 2, max(length - 3, 0), chance.randrange(50000), LONGEST, MOST_OFFSET, MOST_OFFSET + 1, 2**32 - 1])
        answer, handed = model.read_at(item, count, place)
        put_request(script, chance, f"read_at {of} {count:x} {place:x}", f"{answer:x} {handed.hex()}".strip(), 2)
    elif kind == "write":
        data = chance.randbytes(chance.choice([0, 1, 5, 200, 1000, 4088]))
        put_request(script, chance, f"write {of} {data.hex()}", f"{model.write(item, data):x}", 2)
    elif kind == "seek":
        item.offset = chance.choice([0, length, length // 2, max(length - 3, 0), chance.randrange(50000), LONGEST - 1, LONGEST, MOST_OFFSET])
        put_request(script, chance, f"seek {of} {item.offset:x}", "0", 2)
    elif kind == "size":
        size = chance.choice([0, 1, length, random_size(chance), 40960, 40961, length + 4096, LONGEST, LONGEST + 1, 2**32 - 1])
        answer, _ = model.act(("set_file_size", item.way, size))
        put_request(script, chance, f"size {of} {size:x}", f"{answer:x}", 2)
    elif kind == "stat":
        answer, handed = model.act(("stat_file", item.way))
        put_request(script, chance, f"stat {of}", f"{answer:x} {handed.hex()}", 2)
    elif kind == "share":
        other, to = chance.choice(list(model.clients)), chance.randrange(DESCRIPTORS)
        model.clients[other][to] = item
        script.say(f"share {of} {other:x} {to:x}", "0")
    else:
        del model.clients[client][fd]
        script.say(f"close {of}", "0")
    if client in model.clients and fd in model.clients[client]:
        script.say(f"object {of}", item.told())


def put_open(script, chance, model, client, fd, path=None):
    mode = chance.choice([0, 1, 2, 2, 0x100, 0x102, 0x102, 0x200, 0x301, 0x400, 0x500])
    path = random_path(chance, model.tree) if path is None else path
    answer, looks = model.open_path(client, fd, mode, path)
    put_request(script, chance, f"open {client:x} {fd:x} {mode:x} {path.decode()}", f"{answer:x}", looks + 2)
    item = model.clients[client].get(fd)
    script.say(f"object {client:x} {fd:x}", "no descriptor" if item is None else item.told())


def put_removal(script, chance, model, client):
    path = random_path(chance, model.tree)
    closed = [path for way, path in blocks.ways(model.tree.root) if model.tree.file(way) is not None and not model.is_open(way)]
    if closed and chance.random() < 0.4:
        path = chance.choice(closed)
    answer, _ = model.act(("remove_path", path))
    put_request(script, chance, f"remove {client:x} {path.decode()}", f"{answer:x}", 2)


def put_end(script, model, client, chance):
    """A client ends, some of them while the server has their requests, and another begins in its slot."""
    fd, item = chance.choice(list(model.clients[client].items()) or [(0, None)])
    kind = chance.choice(["end", "open", "write"])
    steps = chance.choice([0, 3, 50, 700, chance.randrange(6000)])
    if kind == "open":
        path = random_path(chance, model.tree)
        model.open_path(client, fd, 0x102, path)
        script.say(f"ends {steps:x} 0", "done")
        script.say(f"open {client:x} {fd:x} 102 {path.decode()}", "Gone")
    elif kind == "write" and item:
        data = chance.randbytes(300)
        model.write(item, data)
        script.say(f"ends {steps:x} 0", "done")
        script.say(f"write {client:x} {fd:x} {data.hex()}", "Gone")
    else:
        script.say(f"end {client:x}", "0")
    model.clients[client] = {}
    script.say("client", f"{client:x}")


def put_random(script, chance, model, tight):
    client, fd = chance.choice(list(model.clients)), chance.randrange(DESCRIPTORS)
    number = chance.random()
    if number < 0.22:
        put_open(script, chance, model, client, fd)
    elif number < 0.30:
        put_removal(script, chance, model, client)
    elif number < 0.32:
        put_request(script, chance, f"sync {client:x}", "0", 2)
    elif number < 0.33:
        put_request(script, chance, f"ask {client:x} {chance.choice([0, 6, 11, 2**32 - 1]):x}", f"{BAD:x}", 2)
    elif number < 0.36 and not tight:
        put_end(script, model, client, chance)
    else:
        known = [(client, fd) for client in model.clients for fd in model.clients[client]]
        put_file_act(script, chance, model, *(chance.choice(known) if known and chance.random() < 0.95 else (client, fd)))


def put_warm(script, model):
    """Each client gets a page for its requests and a table for its descriptors, and places get their pages; then the server takes all others."""
    script.say("keep", "done")
    path = b"/warm"
    for client in model.clients:
        answer, _ = model.open_path(client, 0, 0x102, path)
        script.say(f"open {client:x} 0 102 /warm", f"{answer:x}")
        if answer:
            return
    for fd in range(1, 3 * DESCRIPTORS):
        model.open_path(1, fd, 2, path)
        script.say(f"open 1 {fd:x} 2 /warm", "0")
    for fd in range(1, 3 * DESCRIPTORS):
        del model.clients[1][fd]
        script.say(f"close 1 {fd:x}", "0")
    script.say("hold 2000", None)


def put_case(script, chance, tight):
    """A disk and what is done on it; gives the model behind that."""
    data, _ = random_disk(chance)
    while len(data) > 300 * BLOCK:
        data, _ = random_disk(chance)
    jobs.put_disk(script, chance, data)
    model = Model(data, chance.choice([2, 3]))
    for client in model.clients:
        script.say("client", f"{client:x}")
    if tight:
        put_warm(script, model)
    files = [path for way, path in blocks.ways(model.tree.root) if model.tree.file(way) is not None]
    if files:
        for client in model.clients:
            put_open(script, chance, model, client, chance.randrange(DESCRIPTORS), chance.choice(files))
    for _ in range(80):
        put_random(script, chance, model, tight)
        if chance.random() < 0.01:
            put_disk_told(script, model)
    put_disk_told(script, model)
    return model


def put_disk_told(script, model):
    script.say(f"sync {next(iter(model.clients)):x}", "0")
    script.say(f"file 0 {len(model.data):x}", model.data.hex())


def is_told(script, number):
    told = jobs.told_lines(script.lines)
    good = len(told) > len(script.lines)
    for line, wanted, answer in zip(script.lines, script.wanted, told):
        if wanted is not None and answer != wanted:
            good = False
            print(f"case {number}: {line[:60]}: {answer[:60]} and not {wanted[:60]}")
            break
    return good


def main():
    count = int(sys.argv[1]) if len(sys.argv) > 1 else 10
    seed = int(sys.argv[2]) if len(sys.argv) > 2 else 1
    if not os.path.exists(jobs.PROGRAM):
        sys.exit("crates/server_tests is not built: cd crates/server_tests && rt run </dev/null")
    passed = 0
    with tempfile.TemporaryDirectory() as folder:
        for number in range(seed, seed + count):
            script, chance = jobs.Script(), random.Random(number)
            model = put_case(script, chance, number % 2 == 0)
            if is_told(script, number) and blocks.shown(random.Random(number), folder, model.data, model.tree):
                passed += 1
            else:
                print(f"case {number} failed")
    print(f"{passed} passed, {count - passed} failed")
    sys.exit(passed != count)


if __name__ == "__main__":
    main()
