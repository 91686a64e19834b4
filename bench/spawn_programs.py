"""Random programs that start others, and what they start: images of every form, right and wrong."""
import struct

from images import word
from library_programs import EAX, ECX, EDI, EDX, ENDS, ODD_PAGES, PAGES, STACK, PipeProgram, image

STACK_END = 0xEEBFE000
SHARED_PAGES = [0x900000, 0x901000, 0x801000, 0xEEBFD000, 0x200000]
CHILDREN = 12  # files, beside the program, that it may start


def printed(va, length):
    """Code that prints so many bytes of memory."""
    return b"\xba" + word(va) + b"\xb9" + word(length) + b"\xb8" + word(1) + b"\xcd\x40"


class Child:
    """An image of random segments: the first has the code, which tells what it was given, and where it may touch what."""

    def __init__(self, chance):
        self.chance = chance
        self.segments = []  # of each the address, the bytes of the file, the size of the memory, and the flags
        self.parts = []

    def starts(self):
        """It starts another with its own words but the first, where there are any, and waits for that or not."""
        path = b"child%d\0" % self.chance.randrange(CHILDREN)
        made = b"\xeb" + bytes([len(path)]) + path  # over the path
        given = b"\x8b\x4c\x24\x04\x83\xc1\x04"  # the second address of the list to ecx
        given += b"\xba" + word(self.code_va + self.code_length + 2) + b"\xb8" + word(21) + b"\xcd\x40"
        given += self.chance.choice([b"", b"\x89\xc2\xb8" + word(5) + b"\xcd\x40"])
        return made + b"\x83\x3c\x24\x01\x7e" + bytes([len(given)]) + given  # cmp, jle

    def ends(self):
        """What it does behind all it tells."""
        chance = self.chance
        kind = chance.randrange(9)
        where = chance.choice([each[0] + chance.randrange(each[2]) for each in self.segments if each[2]] or [0x800000])
        if kind == 0:
            return b"\xa2" + word(where)  # a byte is written, where that may be
        if kind == 1:
            return b"\x83\x05" + word(chance.choice(SHARED_PAGES) + 8) + b"\1"
        if kind == 2:
            return b"\xb8\x0d\0\0\0\xba" + word(chance.choice([0, 1, 2, 3])) + b"\xb9" + word(0x800000) + b"\xbb\5\0\0\0\xcd\x40"
        if kind == 3:
            # a child of its own, which writes to its own stack
            return b"\xb8\4\0\0\0\xcd\x40\x50\x58" + printed(STACK_END - 64, 64)
        if kind == 5:
            return self.starts()
        if kind == 4:
            return b"\xa0" + word(where + chance.choice([0x1000, 0x3000]))
        return b""

    def code(self):
        chance = self.chance
        made = b"\x60\x9c\x8b\xd4\xb9\x24\0\0\0\xb8\1\0\0\0\xcd\x40\x9d\x61"  # pusha, pushf; these are printed; popf, popa
        made += b"\x89\xe2\xb9" + word(STACK_END) + b"\x29\xd1\xb8\1\0\0\0\xcd\x40"  # its stack up to the end is printed
        for va, content, memory, _ in chance.sample(self.segments, min(2, len(self.segments))):
            for at in chance.sample([0, max(len(content) - 8, 0), len(content), max(memory - 16, 0)], 2):
                if at < memory:
                    made += printed(va + at, min(16, memory - at))
        if chance.random() < 0.3:
            made += printed(chance.choice(SHARED_PAGES), 16)
        self.code_va, self.code_length = self.segments[0][0], len(made)
        return made + self.ends() + b"\xb8\0\0\0\0\xcd\x40"

    def place_segments(self):
        """They lie one behind another, now and then on one page, and are written or not."""
        chance, va = self.chance, 0x800000 + self.chance.choice([0, 84, 0x123, 0xFF0])
        self.segments.append((va, bytes(240), 240 + chance.choice([0, 1, 5000]), chance.choice([5, 7])))
        va += self.segments[0][2]
        for _ in range(chance.choice([0, 1, 1, 2, 3, 5])):
            va += chance.choice([0, 0, 1, 5, 0x7FF, 0x1000, 0x5001])
            if chance.random() < 0.1:
                va = max(va, chance.choice([0x900000, 0x901FF0]))
            memory = chance.choice([1, 3, 17, 100, 4095, 4096, 4097, 9000])
            length = chance.choice([0, 1, 2, 5, memory - 1, memory, memory])
            self.segments.append((va, chance.randbytes(min(length, memory)), memory, chance.choice([4, 6, 5, 7])))
            va += memory
        if chance.random() < 0.1:
            at = chance.choice([0x200000, 0x3FFFFC, 0xCFFFFFFC])
            self.segments.append((at, b"abcd"[: chance.choice([0, 3, 4])], 4, 6))

    def build(self):
        """The headers stand in any order, with others between them; the bytes of the segments anywhere behind the header."""
        chance = self.chance
        self.place_segments()
        va, content, memory, flags = self.segments[0]
        code = self.code()
        self.segments[0] = va, code, max(memory, len(code)), flags
        # a longer one may lie over the next then, and is refused
        entry = va + chance.choice([0] * 20 + [1])
        headers = [(1, *each) for each in self.segments]
        for _ in range(chance.choice([0, 0, 0, 1, 3])):
            headers.append((chance.choice([0, 1, 4, 6]), chance.getrandbits(32), b"", 0, chance.getrandbits(3)))
        chance.shuffle(headers)
        table_size, data = 32 * len(headers), chance.randbytes(chance.choice([0, 0, 1, 40]))
        table = b""
        behind = 52 + chance.choice([0, 0, 0, 3])
        first = behind + table_size
        for kind, va, content, memory, flags in headers:
            data += chance.randbytes(chance.choice([0, 0, 1, 7, 4000]))
            table += struct.pack("<8I", kind, first + len(data) if content else chance.choice([0, first]), va, va, len(content), memory, flags, 0x1000)
            data += content
        header = (b"\x7fELF\1\1\1".ljust(16, b"\0") +
                  struct.pack("<HHIIIIIHHHHHH", 2, 3, 1, entry, behind, 0, 0, 52, 32, len(headers), 0, 0, 0))
        return header.ljust(behind, b"\0") + table + data


def changed(chance, content):
    """One thing of an image is another."""
    content = bytearray(content)
    (table,) = struct.unpack_from("<I", content, 28)
    (number,) = struct.unpack_from("<H", content, 44)
    kind = chance.randrange(9)
    if kind == 0:
        content[chance.randrange(52)] = chance.randrange(256)
    elif kind == 1:
        content[chance.choice([0, 3, 4, 5, 16, 17, 18, 42, 44, 45])] ^= 1 << chance.randrange(8)
    elif kind == 2:
        return bytes(content[:chance.choice([0, 1, 51, 52, 53, 83, 84, chance.randrange(len(content)), len(content) - 1])])
    elif kind == 3:
        struct.pack_into("<I", content, 28, chance.choice([0, 51, len(content) - 32 * number, len(content) - 32 * number + 1, 0xFFFFFFE0, 0xFFFFFFFF]))
    elif kind == 4:
        struct.pack_into("<H", content, 44, chance.choice([0, 1, 16, 17, 255, 256, 65535]))
    elif number:
        at = table + 32 * chance.randrange(number) + 4 * chance.randrange(8)
        (stood,) = struct.unpack_from("<I", content, at)
        new = chance.choice([0, 1, stood + 1, stood - 1, stood + 0x1000, len(content), len(content) + 1, 0x1FFFFF, 0x200000, 0x3FFFFF, 0x400000,
                             0x7FFFFF, 0xCFFFFFFF, 0xD0000000, 0xEEBFD000, 0xFFFFFFFF, 0x7FFFFFFF])
        struct.pack_into("<I", content, at, new & 0xFFFFFFFF)
    return bytes(content)


def children(chance):
    """Files that may be started, by name: most are images."""
    made = {}
    for k in range(chance.randint(1, CHILDREN)):
        content = Child(chance).build()
        if chance.random() < 0.4:
            content = changed(chance, content)
        made[b"child%d" % k] = content
    return made


class SpawnProgram(PipeProgram):
    """The same with spawn above all, of a parent and its children: files of all kinds, words of all kinds, with descriptors, pipes and shared pages."""

    def __init__(self, chance, paths):
        super().__init__(chance, paths)
        self.started = [path for path in paths if b"child" in path]

    def words(self):
        """Where the list of addresses stands: some words, or too many, or too long ones, or none, or it ends the program, or is refused."""
        chance = self.chance
        where = self.log_at + 0x2000 + self.usually(0.8, [0, 4, 0x100], [1, 2, 3, 0xFF4, 0xFFB])
        kind = chance.random()
        if kind < 0.6:
            places = [self.one_word(k) for k in range(chance.choice([1, 1, 2, 3]))]
        elif kind < 0.66:
            places = []
        elif kind < 0.74:
            self.repeat(where, self.one_word(0), chance.choice([15, 16, 17, 18]))
            return where
        elif kind < 0.9:
            places = [self.long_word() for _ in range(chance.choice([1, 1, 2, 3]))]
        else:
            return self.odd_place()
        for k, place in enumerate([*places, 0]):
            self.put(where + 4 * k, word(place))
        return where

    def one_word(self, k):
        chance = self.chance
        where = self.usually(0.9, [self.log_at + 0x1000 + 0x40 * k, STACK + 0x400 + 0x40 * k], [self.log_at + 0x1FFD, self.log_at + 0xFFE]) + chance.randrange(4)
        self.put(where, self.usually(0.8, [b"word\0", b"a\0", b"two words\0"], [b"\0", b"abc\0", b"sixteen bytes by\0", bytes(range(1, 40)) + b"\0"]))
        return where

    def long_word(self):
        """Of about a page, or half of one: it has an end, or none before it is too long, or before the end of the page or of the fence."""
        chance = self.chance
        kind = chance.random()
        if kind < 0.6:
            where, length = self.log_at + 0x1000 + chance.randrange(5), chance.choice([1000, 2030, 2040, 4060, 4070, 4079, 4080, 4081, 4084, 4095, 4096, 4097])
            self.fill_with(where, length)
            self.code += b"\xc6\x05" + word(where + length) + b"\0"
            return where
        if kind < 0.9:
            end = chance.choice([0x400000, 0xD0000000, 0x903000, STACK_END])
            length = chance.choice([1, 3, 4, 5, 100])
            if end != STACK_END:
                self.ask(6, end - 0x1000, 1)
            self.fill_with(end - length, length)
            return end - length
        return self.odd_place()

    def odd_place(self):
        return self.chance.choice(ODD_PAGES + ENDS + PAGES) - self.chance.choice([0, 0, 1, 3, 4]) & 0xFFFFFFFF

    def repeat(self, where, place, count):
        """The same address so often, and a 0."""
        self.set(EDI, where)
        self.set(ECX, count)
        self.set(EAX, place)
        self.code += b"\xf3\xab\xc7\x07" + word(0)

    def starts(self):
        """A file is started, and mostly waited for."""
        chance = self.chance
        words = self.words()
        path = self.log_at + 0xC00
        if chance.random() < 0.9:
            name = self.usually(0.9, self.started, self.paths + [b"none", b"image", b"/"])
            self.put(path, chance.choice([b"", b"", b"/"]) + name[:300] + b"\0")
        else:
            path = self.path()
        self.ask(21, path, words)
        self.log_id()
        if chance.random() < 0.8:
            self.code += b"\x89\xc2"  # mov eax to edx
            self.ask(5)
            self.log()

    def shares(self):
        """A page that is shared is made, which a child may have for one of its own, and written."""
        page = self.chance.choice([0x900000, 0x901000, 0x900000, STACK - 0x1000, 0x200000])
        self.ask(6, page, self.usually(0.8, [3], [2, 1]))
        self.code += b"\xc7\x05" + word(page + 4) + word(self.chance.getrandbits(32)) if self.chance.random() < 0.9 else b""

    def fills_descriptors(self):
        """The console gets each descriptor from 2 up to one."""
        last = self.chance.choice([3, 29, 30, 31, 31])
        self.code += b"\xbe" + word(2)
        begin = len(self.code)
        self.set(EDX, 1)
        self.code += b"\x89\xf1"  # mov esi to ecx
        self.ask(19)
        self.code += b"\x46\x83\xfe" + bytes([last + 1]) + b"\x75"  # inc esi, cmp, jne
        self.code += bytes([begin - len(self.code) - 1 & 255])

    def changes_file(self):
        """A child writes into a file that may be started meanwhile, or sets its size, now and then often."""
        chance = self.chance
        self.ask(4)
        self.code += b"\x85\xc0\x0f\x85" + word(0)  # test eax, jne
        begin = len(self.code)
        where = self.log_at + 0xC00
        self.put(where, chance.choice(self.started or [b"none"]) + b"\0")
        self.ask(10, where, 2)
        self.code += b"\x89\xc6\xbf" + word(chance.choice([1, 2, 10]))  # mov eax to esi, and how often to edi
        again = len(self.code)
        for _ in range(chance.randint(1, 3)):
            self.code += b"\x89\xf2"  # mov esi to edx
            kind = chance.randrange(3)
            if kind == 0:
                self.ask(16, None, chance.choice([0, 40, 84, 100, 300, 4096, 5000]))
            elif kind == 1:
                self.ask(14, None, chance.choice([0, 4, 16, 28, 44, 52, 60, 100, 4096]))
            else:
                self.ask(13, None, self.log_at + chance.choice([0, 0x1000]), chance.choice([1, 4, 40]))
        self.code += b"\x4f\x0f\x85" + word(again - len(self.code) - 7)  # dec edi, jne
        self.ask(0)
        self.code = self.code[:begin - 4] + word(len(self.code) - begin) + self.code[begin:]

    def cuts_file(self):
        """A file is started, while a child cuts it after a while."""
        chance = self.chance
        name = chance.choice(self.started or [b"none"])
        words, path = self.words(), self.log_at + 0xC00
        self.put(path, name + b"\0")
        self.ask(10, path, 2)
        self.code += b"\x89\xc6"  # mov eax to esi
        self.ask(4)
        self.code += b"\x85\xc0\x75"  # test eax, jne
        begin = len(self.code)
        self.set(ECX, chance.choice([1, 500, 2000, 5000, chance.randrange(1, 30000)]))
        self.code += b"\x49\x75\xfd\x89\xf2"  # dec ecx, jne; mov esi to edx
        self.ask(16, None, chance.choice([0, 51, 60, 90, 300, 4096, 4140, 8000]))
        self.ask(0)
        self.code = self.code[:begin] + bytes([len(self.code) - begin]) + self.code[begin:]
        self.ask(21, path, words)
        self.log_id()

    def starts_beside_pipe(self):
        """A child writes to a pipe, or reads from it, while the parent starts a file, which has both ends, and then does the other."""
        self.makes_pipe()
        pipe, child_writes = self.pipes.pop(), self.chance.random() < 0.3
        self.in_child(lambda: self.uses_end(pipe, child_writes))
        self.starts()
        self.uses_end(pipe, not child_writes)

    def acts(self, count):
        kinds = [self.starts, self.shares, self.fills_descriptors, self.makes_pipe, self.opens_file, self.service, self.write,
                 self.changes_file, self.cuts_file, self.fork, self.starts_beside_pipe]
        for _ in range(count):
            if len(self.code) < 0x2000:
                self.chance.choices(kinds, [10, 3, 0.5, 1, 2, 3, 1, 1, 2, *([0, 0] if self.depth == self.depth_max else [1, 2])])[0]()

    def build(self):
        chance = self.chance
        if chance.random() < 0.3:
            self.opens_file()
        if chance.random() < 0.15:
            self.fill()
            self.give_back(14)
        self.acts(chance.randint(3, 12))
        self.end()
        assert len(self.code) < 0x2F00
        return image(self.code, 0x6000)
