"""Random programs for `jos run`, which compare.py runs beside the model of library_model.py."""
from images import CODE, image, word

EAX, ECX, EDX, EBX, ESP, EBP, ESI, EDI = range(8)
STACK = 0xEEBFD000

PAGES = [0x900000, 0x901000, 0x902000, 0x200000, 0x3FF000, 0xCFFFF000, 0xD0400000, 0xEEBFC000]
ODD_PAGES = [0, 1, 0x1FF000, 0x400000, 0x7FF000, 0x900004, 0xD0000000, 0xD03FF000, 0xEEBFE000, 0xEEBFF000, 0xEEC00000,
             0xEF400000, 0xFFFFF000]
ENDS = [0x1FFFFF, 0x200000, 0x3FFFFF, 0x400000, 0x7FFFFF, 0x800000, 0xCFFFFFFF, 0xD0000000, 0xD03FFFFF, 0xD0400000,
        0xEEBFDFFF, 0xEEBFE000, 0xEEC00000, 0xFFFFFFFF]
IDS = [0, 0x1001, 0x1002, 0x2001, 0x2000, 0x13FF, 0xFFFFFFFF]
LIKELY_IDS = [0x1001, 0x1002, 0x1002, 0x1003, 0x1004, 0x2002, 0x2003]
NUMBERS = [22, 23, 0x41, 0x80000000, 0xFFFFFFFF]
FDS, ODD_FDS = [0, 1, 1, 2, 5, 31], [32, 33, 0x80000000, 0xFFFFFFFF]
OPEN_FDS = [0, 1, 1, 1, 2]
MODES, ODD_MODES = [0, 1, 2, 2, 0x100, 0x102, 0x102, 0x200, 0x301, 0x302, 0x400, 0x500], [3, 4, 0x103, 0x800, 0xFFFFFFFF]
SIZES = [0, 1, 5, 4095, 4096, 4097, 9000, 40950, 40960, 40961, 50000, 4235263, 4235264, 4235265, 0x7FFFFFFF, 0x80000000, 0xFFFFFFFF]
LONG_LENGTHS = [100, 1000, 2000, 4087, 4088, 4089, 4096, 0xFFFFFFFF]
PIPE_LENGTHS = [1, 1, 2, 3, 4, 5, 7, 13, 31, 32]
LENGTHS, ODD_LENGTHS = [1, 2, 3, 4, 5, 7, 8, 13, 16, 17], [0, 4095, 4096, 4097, 0x7FFFFFFF, 0xFFFFFFFF]

# how often a program asks for which service; 99 is any other number
ANY = {1: 4, 2: 1, 3: 2, 5: 2, 6: 6, 7: 3, 8: 4, 9: 1, 10: 8, 11: 2, 12: 5, 13: 7, 14: 4, 15: 3, 16: 3, 17: 5, 18: 2, 19: 4, 20: 2, 99: 1}
# where ESP may lie, and at the end the first and last places where it may not
STACKS = [STACK + 0x800, 0x902000, 0, 0xEEBFE000, 0xEEBFE7FF, 0xEEC00000, 0xEEC00FF0]
RESIDENT = [0xEEBFE800, 0xEEBFF000, 0xEEBFFFFF]


class LibraryProgram:
    """Random services, reads and writes. What ends a program at once is rare before its end."""

    log_at = 0x801000  # where a program keeps its answers
    page_ends = [0x801000]  # with a page on either side

    def __init__(self, chance, paths):
        self.chance, self.code, self.answers = chance, b"", 0
        self.paths = paths  # of the disk's files and directories
        self.files = []  # where in the log the answers of open_file stand

    def usually(self, part, these, others):
        return self.chance.choice(these if self.chance.random() < part else others)

    def set(self, register, value):
        self.code += bytes([0xB8 + register]) + word(value)

    def log(self, register=EAX):
        """A register goes to the next place in the log."""
        self.code += bytes([0x89, 0x05 | register << 3]) + word(self.log_at + 4 * self.answers)
        self.answers += 1

    def ask(self, number, edx=None, ecx=None, ebx=None):
        for register, value in [(EDX, edx), (ECX, ecx), (EBX, ebx), (EAX, number)]:
            if value is not None:
                self.set(register, value)
        self.code += b"\xcd\x40"

    def page(self):
        return self.usually(0.75, PAGES, ODD_PAGES)

    def fd(self):
        return self.usually(0.9, OPEN_FDS, FDS + ODD_FDS)

    def buffer(self, length):
        """Where so many bytes may lie, or else may not, or may end the program: a place of the log's page or of the stack, one over
        the end of a page, and others."""
        chance = self.chance
        kind = chance.random()
        if kind < 0.7:
            return chance.choice([self.log_at + 0xE00, STACK + 0x200]) + chance.randrange(32)
        if kind < 0.9:
            return chance.choice(self.page_ends) - chance.randrange(min(length, 40) + 1)
        if kind < 0.96:
            return chance.choice(ODD_PAGES + ENDS) - chance.choice([0, 0, 1, min(length, 4096) - 1, min(length, 4096)]) & 0xFFFFFFFF
        return chance.choice(PAGES) + chance.choice([0, 1, 4, 0x800, 0xFF9, 0xFFC, 0xFFF])

    def moved(self):
        """What read and write are given."""
        length = self.usually(0.85, LENGTHS, ODD_LENGTHS)
        if self.files and self.chance.random() < 0.25:
            length = self.chance.choice(LONG_LENGTHS)
            return self.fd(), self.usually(0.9, [self.code_end(), self.log_at - 0xF00], [self.buffer(length)]), length
        return self.fd(), self.buffer(length), length

    def code_end(self):
        return self.log_at - 0x1000 + self.chance.randrange(9)

    def set_file(self):
        """EDX gets the descriptor of a file that was opened; or it was not, and then it is an error."""
        self.code += b"\x8b\x15" + word(self.chance.choice(self.files))

    def put(self, where, content):
        """Bytes are written, by words."""
        for k in range(0, len(content), 4):
            self.code += b"\xc7\x05" + word(where + k & 0xFFFFFFFF) + content[k:k + 4].ljust(4, b"\0")

    def fill_with(self, where, length):
        """So many letters are written."""
        self.set(EDI, where)
        self.set(ECX, length)
        self.set(EAX, 0x78787878)
        self.code += b"\xf3\xaa"

    def path(self):
        """Where a path stands: one of the disk's, or like one, or too long, or without a NUL before the end of its page, or anything."""
        chance = self.chance
        kind = chance.random()
        where = self.usually(0.8, [self.log_at + 0xC00, STACK + 0x300], self.page_ends) + chance.randrange(-9, 9)
        if kind < 0.7:
            path = self.usually(0.9, self.paths + [b"image"], [b"", b"/", b"//"])
            path = chance.choice([path] * 6 + [b"/" + path, path + b"/", path.replace(b"/", b"//"), path + b"/x", path + b"x"])
            self.put(where, path[:300] + b"\0")
        elif kind < 0.8:
            where = self.log_at + 0x900 + chance.randrange(9)
            self.fill_with(where, chance.choice([127, 128, 300, 1023, 1024, 1030]))
        elif kind < 0.9:
            end = chance.choice(self.page_ends + PAGES[3:6] + PAGES[7:]) + 0x1000
            where = end - chance.randint(1, 12)
            if end not in [each + 0x1000 for each in self.page_ends] and chance.random() < 0.9:
                self.ask(6, end - 0x1000, 1)
            self.fill_with(where, end - where)
        else:
            where = chance.choice(ODD_PAGES + ENDS + PAGES) - chance.choice([0, 0, 1, 4]) & 0xFFFFFFFF
        return where

    def service(self):
        chance = self.chance
        number = chance.choices(list(ANY), list(ANY.values()))[0]
        given = {
            1: lambda: self.usually(0.6, [(self.log_at, 16), (STACK + 0xF80, 0x80)],
                                    [(self.page(), chance.choice([0, 4097, 0xFFFFFFFF])),
                                     (chance.choice(ODD_PAGES), chance.choice([0, 1, 16])),
                                     (chance.choice(ENDS[:4] + ENDS[10:]), 0)]),
            5: lambda: (chance.choice(IDS),),
            6: lambda: (self.page(), self.usually(0.9, [1, 1, 1, 3, 0, 2], [4, 8, 0x80000001])),
            7: lambda: (self.page(),),
            8: lambda: (self.usually(0.7, [0x1002, 0x2001], IDS + [0x1000]), chance.getrandbits(32),
                        self.usually(0.3, [0], [self.page(), 0x30000000])),
            # only what is refused: it would wait for ever
            9: lambda: self.usually(0.5, [(chance.choice(ODD_PAGES[1:]), 0)], [(0, chance.choice([0x1000, 0x1001]))]),
            10: lambda: (self.path(), self.usually(0.95, MODES, ODD_MODES)),
            11: lambda: (self.usually(0.9, FDS, ODD_FDS),),
            12: self.moved,
            13: self.moved,
            14: lambda: (self.fd(), chance.choice(SIZES)),
            15: lambda: (self.fd(), self.buffer(136)),
            16: lambda: (self.fd(), chance.choice(SIZES)),
            17: lambda: (self.path(),),
            19: lambda: (self.usually(0.9, FDS, ODD_FDS), self.usually(0.9, FDS, ODD_FDS)),
        }.get(number, tuple)()
        if number in (11, 12, 13, 14, 15, 16, 19) and self.files and chance.random() < (0.3 if number == 11 else 0.8):
            self.set_file()
            given = (None, *given[1:])
        self.ask(chance.choice(NUMBERS) if number == 99 else number, *given)
        if number == 10:
            self.files.append(self.log_at + 4 * self.answers)
        self.log()
        if number == 20:
            for register in [EDX, ECX]:
                self.files.append(self.log_at + 4 * self.answers)
                self.log(register)
        if chance.random() < 0.2:
            self.log(chance.choice([EDX, ECX, EBX]))

    def opens_file(self):
        """One of the disk's, or a new one."""
        where = self.log_at + 0xC00
        self.put(where, self.chance.choice(self.paths + [b"new", b"/made"])[:300] + b"\0")
        self.ask(10, where, self.chance.choice([0, 1, 2, 2, 2, 0x102, 0x102, 0x302]))
        self.files.append(self.log_at + 4 * self.answers)
        self.log()

    def access(self):
        """A word of a page is read or written, which may end the program."""
        where = self.usually(0.97, [STACK + 4 * self.chance.randrange(1024), self.log_at + 0xE00], PAGES + ENDS)
        if self.chance.random() < 0.5:
            self.code += b"\xa1" + word(where)
            self.log()
        else:
            self.set(EAX, self.chance.getrandbits(32))
            self.code += b"\xa3" + word(self.log_at + 0xF00 if where >= STACK else where)

    def new_page_used(self):
        """A page is made and written, now and then across its end, and read."""
        page = self.chance.choice(PAGES)
        self.ask(6, page, self.usually(0.95, [1, 3], [0, 2]))
        self.log()
        self.code += b"\xc7\x05" + word(page + self.usually(0.95, [0, 0xFFC], [0xFFE]))
        self.code += word(self.chance.getrandbits(32))
        self.code += b"\xa1" + word(page + 0xFFC)
        self.log()

    def stack(self):
        """ESP goes elsewhere, and a word may be pushed and taken again; then ESP is in the stack again."""
        self.set(ESP, self.usually(0.98, STACKS, RESIDENT))
        if self.chance.random() < 0.3:
            self.set(ESP, self.usually(0.95, [STACK + 0xF00, STACK + 4], [0x902000]))
            self.code += b"\x68" + word(self.chance.getrandbits(32)) + b"\x58"
            self.log()
        self.set(ESP, STACK + 0xF00)

    def fill(self):
        """Pages are taken until it is refused."""
        self.code += b"\xbe" + word(self.chance.choice([0x10000000, 0x10300000, 0xCFF00000]))
        begin = len(self.code)
        self.code += b"\x89\xf2"  # mov esi to edx
        self.ask(6, ecx=self.chance.choice([0, 1, 3]))
        self.code += b"\x81\xc6" + word(0x1000) + b"\x85\xc0"  # add 0x1000 to esi, test eax
        self.code += b"\x74" + bytes([begin - len(self.code) - 2 & 255])
        self.log()

    def give_back(self, most):
        """Some of these pages."""
        for _ in range(self.chance.randint(0, most)):
            self.code += b"\x81\xee" + word(0x1000) + b"\x89\xf2"  # sub 0x1000 from esi, mov esi to edx
            self.ask(7)

    def end(self):
        """Tells what it has got, and ends in one way or another."""
        chance = self.chance
        self.ask(1, self.log_at, 4 * self.answers)
        if chance.random() < 0.5:
            self.ask(1, STACK, 4096)
        kind = chance.randrange(18)
        if kind == 0:
            self.ask(9, self.usually(0.5, [0], PAGES), chance.choice([0, 0x1002]))
        elif kind == 1:
            self.ask(5, 0x1000)
        elif kind == 2:
            self.code += chance.choice([b"\xeb\xfe", b"\xf4", b"\xcc", b"\xcd\x30", b"\xcd\x0e", b"\xcd\x03", b"\x0f\x0b"])
        elif kind == 3:
            self.set(EAX, chance.choice(ENDS + PAGES))
            self.code += b"\xff\xe0"
        elif kind == 4:
            where = chance.choice(ENDS) + chance.choice([0, -1, -2, -3])
            self.code += chance.choice([b"\xa0", b"\xa1", b"\xa2", b"\xa3"]) + word(where)
        elif kind == 5:
            self.ask(1, chance.choice(PAGES + [0x30000000]) + chance.choice([0, 0xFFF]), chance.choice([1, 2, 4096]))
        elif kind == 6:
            self.set(ESP, chance.choice(RESIDENT))
        elif kind == 7:
            # where no page is, or behind the end of one
            where = chance.choice(PAGES + [0x30000000]) + chance.choice([0, 3, 0xFF0, 0xFFF])
            self.ask(chance.choice([12, 13, 13, 15]), chance.choice([0, 1]), where, chance.choice([1, 4, 40, 4096]))
        self.ask(0)

    def build(self):
        """The image."""
        chance = self.chance
        if chance.random() < 0.6:
            self.opens_file()
        for _ in range(chance.randint(3, 40)):
            act = chance.choices([self.service, self.access, self.new_page_used, self.stack], [12, 3, 2, 2])[0]
            act()
        if chance.random() < 0.2:
            self.fill()
            if chance.random() < 0.7:
                self.give_back(6)
                for _ in range(chance.randint(2, 6)):
                    self.ask(17, self.path())
                    self.log()
            for _ in range(6):
                self.service()
        self.end()
        return image(self.code, chance.choice([0x1F00, 0x2000, 0x3000]))


class ForkProgram(LibraryProgram):
    """The same of a parent and its children: forks, writes to what is copied then and to what is shared, messages, and
    waiting. It has code in up to three pages, its answers in the next one, and two pages behind that."""

    log_at = 0x803000
    page_ends = [0x803000, 0x804000, 0x805000]
    depth_max = 3

    def __init__(self, chance, paths):
        super().__init__(chance, paths)
        self.depth, self.ids = 0, []  # where in the log ids stand
        self.fills_table = False  # whether it wants as many frames as there are slots for children

    def set_id(self, register):
        """A register gets an id: one that was logged, or any."""
        if self.ids and self.chance.random() < 0.7:
            self.code += bytes([0x8B, 0x05 | register << 3]) + word(self.chance.choice(self.ids))
        else:
            self.set(register, self.usually(0.9, LIKELY_IDS, IDS))

    def log_id(self):
        self.ids.append(self.log_at + 4 * self.answers)
        self.log()

    def fork(self):
        """Both go on alike, or the child does something else and ends."""
        chance = self.chance
        self.ask(4)
        if chance.random() < 0.8:
            self.log_id()
        if self.depth == self.depth_max or chance.random() < 0.3:
            return
        self.code += b"\x85\xc0\x0f\x85" + word(0)  # test eax, jne
        begin = len(self.code)
        self.depth += 1
        self.acts(chance.randint(0, 8))
        self.end()
        self.depth -= 1
        self.code = self.code[:begin - 4] + word(len(self.code) - begin) + self.code[begin:]

    def service(self):
        chance = self.chance
        kind = chance.choices(["any", "id", "wait", "send", "receive"], [5, 2, 2, 2, 1])[0]
        if kind == "any":
            super().service()
        elif kind == "id":
            self.ask(2)
            self.log_id()
        elif kind == "wait":
            self.set_id(EDX)
            self.ask(5)
            self.log()
        elif kind == "send":
            self.set_id(EDX)
            self.ask(8, None, chance.getrandbits(32), self.message_page([0x800000, self.log_at]))
            self.log()
        else:
            self.set(ECX, 0)
            if chance.random() < 0.3:
                self.set_id(ECX)
            self.ask(9, self.message_page([]))
            for register in [EAX, EDX, ECX, EBX]:
                self.log(register)

    def message_page(self, more):
        return self.usually(0.5, [0], PAGES[:3] + more)

    def exchange(self):
        """A child is made that sends, or that receives; the parent does the other."""
        chance = self.chance
        flags, page, place = chance.choice([0, 0, 1, 2, 3, 3]), chance.choice(PAGES[:3]), chance.choice([0] + PAGES[:3])
        self.ask(6, page, flags)
        if flags & 1:
            self.code += b"\xc7\x05" + word(page + 8) + word(chance.getrandbits(32))
        self.ask(2)
        self.log_id()
        self.ask(4)
        self.log_id()
        parent, child = self.ids[-2:]
        child_sends = chance.random() < 0.5
        self.code += b"\x85\xc0\x0f\x85" + word(0)
        begin = len(self.code)
        for sends, other in [(child_sends, parent), (not child_sends, child)]:
            if sends:
                self.code += b"\x8b\x15" + word(other)
                self.ask(8, None, chance.getrandbits(32), chance.choice([page, page, page, 0]))
            else:
                self.ask(9, place, 0)
            for register in [EAX, EDX, ECX, EBX]:
                self.log(register)
            self.write()
            if other == parent:
                self.end()
                self.code = self.code[:begin - 4] + word(len(self.code) - begin) + self.code[begin:]

    def hand_over(self):
        """Bytes are handed over to a page that is there, mostly, and may wait to be copied, or to two, and are read; or they are
        printed."""
        chance = self.chance
        page = self.usually(0.85, [self.log_at + 0x1000, self.log_at + 0x2000, STACK], PAGES[:3])
        where = page + chance.choice([0, 1, 4, 0x7F2, 0xF78, 0xF79, 0xF7C, 0xFFC, 0xFFF, -1, -4, -0x85])
        self.ask(*chance.choice([(12, 0, where, 1), (15, 1, where), (13, 1, where, chance.choice(LENGTHS))]))
        self.log()
        self.code += b"\xa1" + word(min(max(where, page), page + 0xFFC))
        self.log()

    def write(self):
        """A word or a byte is written, or many, to a page that is there, mostly."""
        chance = self.chance
        page = self.usually(0.8, [self.log_at + 0x1000, self.log_at + 0x2000, STACK], PAGES)
        where = page + chance.choice([0, 4, 0x7F0, 0xFFC, 0xFFE])
        kind = chance.randrange(9)
        if kind == 0:
            self.code += b"\xc7\x05" + word(where) + word(chance.getrandbits(32))
        elif kind == 1:
            self.code += chance.choice([b"\xff\x05", b"\xff\x0d", b"\x01\x05", b"\x87\x05", b"\xfe\x05"]) + word(where)
        elif kind == 2:
            # many words, from here to there
            self.set(ESI, chance.choice([self.log_at, self.log_at + 0x1FF0, STACK]))
            self.set(EDI, chance.choice([self.log_at + 0x1FF8, self.log_at + 0x1000, STACK + 8]))
            self.set(ECX, chance.randint(0, 8))
            self.code += b"\xf3" + chance.choice([b"\xa5", b"\xa4", b"\xab", b"\xaa"])
        elif kind in (3, 4):
            # all registers, over the end of a page
            over = self.usually(0.9, [self.log_at + 0x1000, self.log_at + 0x2000], [0x901000, 0x902000, STACK])
            self.set(ESP, over + chance.choice([4, 16, 28, 30]))
            self.code += b"\x60"
            self.set(ESP, STACK + 0xF00)
        elif kind == 5:
            self.code += chance.choice([b"\xe8" + word(0) + b"\x58", b"\x50\x58", b"\x9c\x58"])  # call, push, pushf
        elif kind == 6:
            # its own next instruction
            self.code += b"\xc7\x05" + word(CODE + len(self.code) + 11) + word(chance.getrandbits(32))
            self.set(EAX, chance.getrandbits(32))
            self.log()
        elif kind == 7:
            self.code += b"\xa3" + word(0x800000 + chance.choice([0, 4, 80]))
        else:
            self.code += b"\xa3" + word(self.log_at + 0xF00)
        if kind < 3:
            self.code += b"\xa1" + word(where)
            self.log()

    def fill_and_fork(self):
        """Pages are taken until it is refused, some are given back, and then it forks, once or more."""
        chance = self.chance
        if chance.random() < 0.5:
            # so that a page was copied before, and there is the table for that
            self.ask(4)
            self.write()
        self.fill()
        self.give_back(14)
        for _ in range(chance.choice([1, 1, 2, 3])):
            self.fork()
            chance.choice([self.write, self.hand_over])()

    def many(self):
        """Children are made until it is refused; each waits for a message, or ends."""
        self.fills_table = self.chance.random() < 0.1
        begin = len(self.code)
        self.ask(4)
        self.code += b"\x85\xc0\x7f" + bytes([begin - len(self.code) - 4 & 255])  # test eax, jg
        self.code += b"\x75" + bytes([len(self.receiving()) + 7])
        self.code += self.receiving()
        self.ask(0)
        self.log()
        for _ in range(self.chance.randint(0, 3)):
            self.set(EDX, self.chance.choice([0x1002, 0x1003, 0x1010]))
            self.ask(8, None, 7, 0)
            self.log()

    @staticmethod
    def receiving():
        return b"\xba" + word(0) + b"\xb9" + word(0) + b"\xb8" + word(9) + b"\xcd\x40"

    def acts(self, count):
        kinds = [self.service, self.access, self.new_page_used, self.stack, self.write, self.hand_over, self.fork, self.exchange]
        for _ in range(count):
            if len(self.code) < 0x2000:
                self.chance.choices(kinds, [6, 1, 3, 1, 5, 3, 0 if self.depth == self.depth_max else 2, 1])[0]()

    def build(self):
        chance = self.chance
        for _ in range(chance.randint(0, 3)):
            self.new_page_used()
        if chance.random() < 0.5:
            self.opens_file()
        kind = chance.random()
        if kind < 0.3:
            self.fill_and_fork()
        elif kind < 0.35:
            self.many()
        else:
            self.fork()
        self.acts(chance.randint(0, 12))
        self.end()
        assert len(self.code) < 0x2F00
        return image(self.code, 0x6000)


class FileProgram(ForkProgram):
    """The same with files above all: they are opened, read, written, sized and sought, mostly as may be, by a parent and its children."""

    def offset(self):
        return self.usually(0.8, [0, 0, 1, 5, 100, 4090, 4095, 4096, 8190, 9000, 40950, 40960], SIZES)

    def buffer_and_length(self):
        length = self.usually(0.6, LENGTHS + [100], LONG_LENGTHS + [0])
        where = self.log_at + 0x1000 + self.chance.randrange(40)
        return (where, length) if self.chance.random() < 0.95 else (self.buffer(length), length)

    def act_on_file(self):
        chance = self.chance
        number = chance.choices([10, 11, 12, 13, 14, 15, 16, 17, 18, 19], [3, 1, 6, 8, 5, 2, 3, 2, 1, 1])[0]
        if number == 10:
            self.opens_file()
            return
        if number == 17:
            where = self.log_at + 0xC00
            self.put(where, chance.choice(self.paths + [b"new", b"/made"])[:300] + b"\0")
            given = (where,)
        else:
            self.set_file()
            given = {
                12: lambda: (None, *self.buffer_and_length()),
                13: lambda: (None, *self.buffer_and_length()),
                14: lambda: (None, self.offset()),
                15: lambda: (None, self.log_at + 0x1000 + chance.randrange(40)),
                16: lambda: (None, self.offset()),
                19: lambda: (None, chance.choice([2, 3, 4, 5, 31])),
            }.get(number, lambda: (None,))()
        self.ask(number, *given)
        self.log()
        if number in (12, 15) and chance.random() < 0.5:
            self.ask(1, given[1], 136)

    def acts(self, count):
        kinds = [self.act_on_file, super().service, self.write, self.fork]
        for _ in range(count):
            if len(self.code) < 0x2000:
                self.chance.choices(kinds, [16, 1, 1, 0 if self.depth == self.depth_max else 1])[0]()

    def build(self):
        chance = self.chance
        for _ in range(chance.randint(1, 3)):
            self.opens_file()
        if chance.random() < 0.1:
            self.fill()
            self.give_back(9)
        self.acts(chance.randint(5, 15))
        if chance.random() < 0.6:
            self.fork()
        self.acts(chance.randint(5, 25))
        self.end()
        assert len(self.code) < 0x2F00
        return image(self.code, 0x6000)


class PipeProgram(ForkProgram):
    """The same with pipes above all, whose ends a parent and its children have: bytes are written and read, so that mostly nobody waits for ever."""

    def __init__(self, chance, paths):
        super().__init__(chance, paths)
        self.pipes = []  # of each where in the log its reading end and its writing end stand, and about how many bytes it holds

    def makes_pipe(self):
        self.ask(20)
        self.log()
        for register in [EDX, ECX]:
            self.files.append(self.log_at + 4 * self.answers)
            self.log(register)
        self.pipes.append([*self.files[-2:], 0])

    def ask_of(self, number, place, ecx=None, ebx=None):
        """Of the descriptor that stands there in the log."""
        self.code += b"\x8b\x15" + word(place)
        self.ask(number, None, ecx, ebx)

    def moves(self, number, place, length):
        """Bytes are read or written; a program may end by that."""
        where = self.log_at + 0x1000 + self.chance.randrange(40)
        self.ask_of(number, place, where if self.chance.random() < 0.95 else self.buffer(length), length)
        return where

    def reads_all(self, place):
        """Pieces are read and printed, up to the end, or to an error."""
        begin = len(self.code)
        where = self.moves(12, place, self.chance.choice(PIPE_LENGTHS + [40, 4096]))
        self.code += b"\x89\xc6\x89\xc1"  # mov eax to esi and to ecx
        self.ask(1, where)
        self.code += b"\x85\xf6\x0f\x8f" + word(begin - len(self.code) - 8)  # test esi, jg
        self.log(ESI)

    def in_child(self, act):
        """A child does that, and ends; its parent goes on."""
        self.ask(4)
        self.code += b"\x85\xc0\x0f\x85" + word(0)  # test eax, jne
        begin = len(self.code)
        self.depth += 1
        kept, self.pipes = self.pipes, []
        act()
        self.acts(self.chance.randint(0, 2))
        if self.chance.random() < 0.1:
            self.end()
        self.ask(0)
        self.depth -= 1
        self.pipes = kept
        self.code = self.code[:begin - 4] + word(len(self.code) - begin) + self.code[begin:]

    def through(self):
        """A child writes to a pipe, or reads from it, and its parent does the other; mostly each closes the end that it does not want, and the child
        those of all other pipes."""
        pipe = self.chance.choice(self.pipes)
        self.pipes.remove(pipe)
        others, child_writes = self.pipes, self.chance.random() < 0.5

        def of_child():
            for place in [place for each in others for place in each[:2]]:
                if self.chance.random() < 0.9:
                    self.ask_of(11, place)
            self.uses_end(pipe, child_writes)

        self.in_child(of_child)
        self.uses_end(pipe, not child_writes)

    def uses_end(self, pipe, writes):
        chance = self.chance
        if chance.random() < 0.95:
            self.ask_of(11, pipe[0 if writes else 1])
        if writes:
            for _ in range(chance.randint(0, 5)):
                self.moves(13, pipe[1], chance.choice(PIPE_LENGTHS + [0, 33, 40, 100]))
                self.log()
        elif chance.random() < 0.7:
            self.reads_all(pipe[0])
        else:
            for _ in range(chance.randint(1, 4)):
                self.moves(12, pipe[0], chance.choice(PIPE_LENGTHS))
                self.log()
        if chance.random() < 0.95:
            self.ask_of(11, pipe[1 if writes else 0])

    def act_on_pipe(self):
        """Where no other act is to be expected: bytes are written where there is room, and read where there are any."""
        chance = self.chance
        if not self.pipes:
            self.makes_pipe()
            return
        pipe = chance.choice(self.pipes)
        reading, writing, held = pipe
        number = chance.choices([20, 11, 12, 13, 14, 15, 16, 19], [2, 1, 6, 8, 1, 4, 1, 3])[0]
        end = chance.choice([reading, writing])
        if number == 20:
            self.makes_pipe()
            return
        if number == 12:
            length = chance.choice(PIPE_LENGTHS if held or chance.random() < 0.03 else [0])
            self.moves(12, reading, length)
            pipe[2] = max(held - length, 0)
        elif number == 13:
            length = chance.choice([each for each in PIPE_LENGTHS if each <= 32 - held] or [0])
            if chance.random() < 0.03:
                length = chance.choice(PIPE_LENGTHS + [33, 40])
            self.moves(13, writing, length)
            pipe[2] = min(held + length, 32)
        elif number == 19:
            # the copy may take the place of the end
            self.ask_of(19, end, chance.choice([2, 3, 4, 5, 10, 31, 32]))
            self.files.append(self.log_at + 4 * self.answers)
            if chance.random() < 0.3:
                pipe[0 if end == reading else 1] = self.files[-1]
        elif number == 15:
            self.ask_of(15, end, self.log_at + 0x1000 + chance.randrange(40))
        else:
            self.ask_of(number, end, chance.choice(SIZES))
            if number == 11:
                self.pipes.remove(pipe)
        self.log()

    def acts(self, count):
        kinds = [self.act_on_pipe, self.write, self.service, self.through, self.fork]
        for _ in range(count):
            if len(self.code) < 0x2000:
                may_fork = self.depth < self.depth_max
                self.chance.choices(kinds, [12, 1, 0.3, 5 if may_fork and self.pipes else 0, 0.3 if may_fork else 0])[0]()

    def build(self):
        chance = self.chance
        if chance.random() < 0.3:
            self.opens_file()
        if chance.random() < 0.1:
            self.fill()
            self.give_back(9)
        for _ in range(chance.randint(1, 4)):
            self.makes_pipe()
        self.acts(chance.randint(3, 20))
        if chance.random() < 0.3:
            self.end()
        self.ask(1, self.log_at, 4 * self.answers)
        self.ask(0)
        assert len(self.code) < 0x2F00
        return image(self.code, 0x6000)


def random_words(chance):
    """What a program is given behind the image's name: no option."""
    texts = ["", "a", "word", "two words", "0", "longer than the others"]
    return [chance.choice(texts) for _ in range(chance.choice([0, 0, 1, 2, 5, 15]))]
