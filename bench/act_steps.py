#!/usr/bin/env python3
"""Counts the steps of the file server from a request to its act, over the disks on which acts are the longest, by the model of server_model.py.

    bench/act_steps.py     tables: acts over disks of two sizes, with a cold and a warm cache; what a block more costs, and of what may be

The steps are those of the server alone, calls of its cache among them, from the one behind the request's coming up to the act. They are
65,504 at most, and 8,192 for each block of the disk (`server_calls_max` of fs_seen), where no page is refused: so here, where the hand of the
cache never goes round.
"""
import sys

from disks import BLOCK, DIRECT, INDIRECT, Disk, words
from model import P, PAGE_SIZE, U, W, Frames
from server_model import (CREATE, FIRST_PLACE, OPEN, OPEN_RECORDS, REMOVE, REQUEST_BYTES, REQUEST_COUNT, REQUEST_MODE, REQUEST_NUMBER,
                          REQUEST_PAGE, SET_SIZE, SHARED, STAT, TRUNCATE, WRITE, FileServer)

RECORDS, LONGEST, FRAMES = 16, (DIRECT + INDIRECT) * BLOCK, 20000


def alike(name, number):
    """Another name, as long, by a number: the first 253 share all but the last byte with it, and the next all but two."""
    bytes_of_names = [b for b in range(1, 256) if b != ord("/")]
    lasts = [b for b in bytes_of_names if b != name[-1]]
    if number < len(lasts):
        return name[:-1] + bytes([lasts[number]])
    number -= len(lasts)
    firsts = [b for b in bytes_of_names if b != name[-2]]
    return name[:-2] + bytes([firsts[number // len(bytes_of_names)], bytes_of_names[number % len(bytes_of_names)]])


class Room:
    """What a request finds: a run of one server over a disk."""

    def __init__(self, disk, frames):
        self.frames = Frames(frames)
        self.refused = 0
        self.environment = type("Environment", (), {})()
        self.environment.directory, self.environment.id, self.environment.message = self.frames.create(), 0x1000, (1, 0)
        for page, bits in ((REQUEST_PAGE, P | U | W), (OPEN_RECORDS, P | U | W), (FIRST_PLACE, P | U | W | SHARED)):
            assert self.frames.allocate(self.environment.directory, page, bits)
        self.server = FileServer(self, self.environment, disk)

    def wanting(self, error):
        self.refused += 1

    def try_to_send(self, client, answer, va):
        return 0

    def serve(self, kind, page, home=0, offset=0):
        """The steps from the request to the act, and the answer."""
        server = self.server
        server.step()  # the request before it is given back
        here = self.frames.entries[self.environment.directory]
        self.frames.allocate(self.environment.directory, REQUEST_PAGE, P | U | W)
        self.frames.bytes[here[REQUEST_PAGE][0]][:] = page.ljust(PAGE_SIZE, b"\0")
        if home:
            server.put_own_word(OPEN_RECORDS, 0, home)
            server.put_own_word(FIRST_PLACE, 4, offset)
        self.environment.message = (1, kind)
        steps, server.has_to_act = 0, True
        server.step()
        while server.has_to_act:
            server.step()
            steps += 1
        answer = server.answer
        server.step()
        return steps, answer


def full_directories(sizes, leads=True):
    """Directories of so many blocks, in one another, each full, whose names share as many bytes with that of the path as names can; the
    last record of each leads on, but that of the innermost only where it `leads`. The disk and the path."""
    disk = Disk(sum(sizes) + sum(size > DIRECT for size in sizes) + 5)
    rest, names = 1023 - (len(sizes) - 1), []
    for k in range(len(sizes)):
        names.append(bytes([97 + k % 26]) * min(127, rest - 2 * (len(sizes) - 1 - k)))
        rest -= len(names[k])
    data = None
    for size, name in reversed(list(zip(sizes, names))):
        records = [alike(name, k).ljust(256, b"\0") for k in range(RECORDS * size)]
        if data is not None or leads:
            records[-1] = disk.record(name, data or b"", data is not None)
        data = b"".join(records)
    direct, indirect = disk.put(data)
    root = b"/".ljust(128, b"\0") + words(2, [len(data), 1]) + words(DIRECT, direct) + words(1, [indirect]) + bytes(76)
    return disk.finish(root), b"/".join(names)


def one_file(size, blocks):
    """A disk of so many blocks with a file, whose record is the first of the root."""
    disk = Disk(blocks)
    record = disk.record(b"file", bytes(size), 0)
    direct, indirect = disk.put(record.ljust(BLOCK, b"\0"))
    root = b"/".ljust(128, b"\0") + words(2, [BLOCK, 1]) + words(DIRECT, direct) + words(1, [indirect]) + bytes(76)
    return disk.finish(root), BLOCK * direct[0]


def opening(path, mode):
    return path.ljust(REQUEST_MODE, b"\0") + mode.to_bytes(4, "little")


def of_file(count, data=b""):
    return (b"\0" * REQUEST_COUNT + count.to_bytes(4, "little")).ljust(REQUEST_BYTES, b"\0") + data


def acts(sizes):
    """Names of acts, each with its disk, and itself."""
    disk, path = full_directories(sizes)
    other, same = full_directories(sizes, False)
    return [
        ("open", disk, (OPEN, opening(path, 0))),
        ("create", other, (OPEN, opening(same, CREATE))),
        ("open what is not there", other, (OPEN, opening(same, 0))),
        ("remove", disk, (REMOVE, path)),
    ]


def file_acts(blocks):
    """The same of a file that takes what is left of the disk beside block 0, the super block, the bitmap, the root's and the indirect block."""
    most = min((blocks - 5) * BLOCK, LONGEST)
    empty, home = one_file(0, blocks)
    whole, full_home = one_file(most, blocks)
    part, part_home = one_file(most - 4088, blocks)
    return [
        ("write a piece at the end", part, (WRITE, of_file(4088, b"x" * 4088), part_home, most - 4088)),
        ("write a piece far behind", empty, (WRITE, of_file(4088, b"x" * 4088), home, most - 4088)),
        ("set_size to the most", empty, (SET_SIZE, of_file(most), home)),
        ("set_size to 0", whole, (SET_SIZE, of_file(0), full_home)),
        ("open, truncated", whole, (OPEN, opening(b"file", TRUNCATE))),
        ("remove", whole, (REMOVE, b"file")),
        ("stat", whole, (STAT, of_file(0), full_home)),
    ]


def count(disk, act, warm):
    """The steps of the act, where no block of the disk is in the cache, or each."""
    room = Room(disk, FRAMES)
    if warm:
        for block in range(len(disk) // BLOCK):
            drive(room.server.fetch(block))
        room.server.found = None
    steps, answer = room.serve(*act)
    if room.refused:
        sys.exit("a page was refused")
    return steps, answer


def drive(calls):
    """Calls that are not counted."""
    try:
        call = next(calls)
        while True:
            call = calls.send(call())
    except StopIteration:
        pass


def table(title, makes, small, large):
    print(f"{title}\n\n| Act | Answer | Cache | {small} | {large} | A block more | Of what may be |\n|---|---|---|---|---|---|---|")
    for (name, disk, act), (_, other, same) in zip(makes(small), makes(large)):
        for cache in ("cold", "warm"):
            few, _ = count(disk, act, cache == "warm")
            many, answer = count(other, same, cache == "warm")
            blocks = len(other) // BLOCK
            print(f"| {name} | {answer} | {cache} | {few:,} | {many:,} of {blocks} blocks | {(many - few) / (large - small):,.1f} | "
                  f"{100 * many / (65504 + 8192 * blocks):.1f} % |", flush=True)
    print()


def main():
    table("A directory of so many blocks", lambda n: acts([n]), 8, 15)
    table("The same, and more names than share 126 bytes", lambda n: acts([n]), 100, 150)
    table("Seven directories in one another, of so many blocks together", lambda n: acts([n // 7] * 7), 56, 105)
    table("A file that fills a disk of so many blocks", file_acts, 64, 256)


if __name__ == "__main__":
    main()
