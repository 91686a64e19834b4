"""spawn, as library_model.py has it: what it does call by call.

It is written after docs/library.md, and shares nothing with the code. It is a generator of calls, as the jobs of server_model.py are: each call
is a function without arguments, made by one step, and spawn goes on by what came of it. The last call of all answers.
"""
import struct

from model import EXCEPTION_STACK, INVALID, NO_MEMORY, NOT_RECEIVING, P, PAGE_SIZE, STACK_TOP, U, W
from processor import Processor
from server_model import BAD_PATH, FILE_SIZE, LONGEST_PATH, MAX_OPEN, NUMBER, OPEN, READ_AT, REQUEST_COUNT, REQUEST_MODE, REQUEST_NUMBER
from server_model import REQUEST_PLACE, TRANSFER_MAX

NOT_EXECUTABLE = 14
STRINGS_MAX = 16
PATH_PAGE, GIVEN_PAGE, STACK_PAGE, HERE_PAGE = range(0x400, 0x404)  # where its own pages stand, the last for a page of the child
ADDRESSES = 2048  # where the first of these has the addresses of the strings
HEADER_SIZE, RECORD_WORDS = 52, 17
RANGES = [(0x00200000, 0x00400000), (0x00800000, 0xD0000000)]  # where a segment may lie
FENCE = [*RANGES, (0xD0400000, STACK_TOP)]
FIRST_DESCRIPTOR, DESCRIPTORS = 0xD0000, 32
SERVER, SHARED, AVAILABLE = 0x1000, 0x400, 0xE00
LOADED, WRITTEN = 1, 2  # the kind of a segment, and a bit of its flags


class Refused(Exception):
    """It is answered so, once what was done is undone."""

    def __init__(self, answer):
        super().__init__(answer)
        self.answer = answer


class Header:
    """A program header."""

    def __init__(self, table, number):
        self.kind, self.place, self.va, _, self.in_file, self.in_memory, self.flags, _ = struct.unpack_from("<8I", table, 32 * number)

    def pages(self):
        return range(self.va >> 12, (self.va + self.in_memory - 1 >> 12) + 1)


class Spawn:
    """spawn(path, argv) of the environment that has the turn."""

    def __init__(self, run, path, argv):
        self.run, self.me, self.path, self.argv = run, run.now, path, argv
        self.descriptor = self.child = None  # the file's, and who is made
        self.calls = self.made()
        self.call = next(self.calls)

    def step(self):
        """The next call. The answer, where it was the last; else None."""
        try:
            self.call = self.calls.send(self.call())
        except StopIteration as answered:
            return answered.value
        return None

    # ---- calls

    def entries(self):
        return self.run.frames.entries[self.me.directory]

    def own_bytes(self, page):
        return self.run.frames.bytes[self.entries()[page][0]]

    def put_word(self, page, at, word):
        self.own_bytes(page)[at:at + 4] = struct.pack("<I", word)

    def allocate(self, environment, page):
        """0, or the answer of the refusal."""
        if self.run.frames.allocate(environment.directory, page, P | U | W):
            return 0
        return self.run.wanting(NO_MEMORY)

    def map(self, source, page, environment, at, bits):
        """0, or the answer of the refusal: a frame for the table may be wanted."""
        frame = self.run.frames.entries[source.directory][page][0]
        if self.run.frames.insert(environment.directory, at, frame, bits):
            return 0
        return self.run.wanting(NO_MEMORY)

    def unmap(self, page):
        self.run.frames.remove(self.me.directory, page)

    def has_table(self, region):
        return region in self.run.frames.regions[self.me.directory]

    def try_to_ask(self, kind):
        answer = self.run.try_to_send(SERVER, kind, PATH_PAGE << 12)
        assert answer in (0, -NOT_RECEIVING)
        self.run.server.has_to_act = self.run.server.has_to_act or not answer
        return answer

    def pause(self):
        self.me.status = "runnable"

    def wait_for_server(self, page):
        self.me.receives, self.me.status = (page << 12, SERVER), "not runnable"

    # ---- what it is given

    def gathered(self, va, wanted, is_first):
        """The bytes at an address, of which so many are wanted: a word, where it lies whole at a multiple of four, and else one. Before the first byte of
        all, and of each page, the entries of its region and of its page are read, and where one is not there the byte is loaded all the same."""
        if is_first or va % PAGE_SIZE == 0:
            if (yield lambda: self.has_table(va >> 22)):
                yield lambda: self.entries().get(va >> 12)
        size = 4 if va % 4 == 0 and wanted >= 4 else 1
        return (yield lambda: self.me.memory.read(va, size))

    def taken_path(self):
        """Its bytes are put into a page, up to a NUL. Where none may come any more the page is given back."""
        if answer := (yield lambda: self.allocate(self.me, PATH_PAGE)):
            raise Refused(answer)
        done = 0
        while True:
            content = yield from self.gathered(self.path + done, LONGEST_PATH + 1 - done, done == 0)
            while content:
                kept = content if len(content) == 4 and done % 4 == 0 else content[:1]
                yield lambda: self.kept(PATH_PAGE, done, kept)
                done, content = done + len(kept), content[len(kept):]
                if 0 in kept:
                    return
            if done > LONGEST_PATH or not self.is_inside(self.path + done):
                yield lambda: self.unmap(PATH_PAGE)
                raise Refused(-BAD_PATH if done > LONGEST_PATH else -INVALID)

    def kept(self, page, at, content):
        self.own_bytes(page)[at:at + len(content)] = content

    @staticmethod
    def is_inside(va):
        return any(start <= va < end for start, end in FENCE)

    def taken_addresses(self):
        """Those of the strings, and a 0 behind the last. Each is put behind the path, the 0 too."""
        addresses = []
        while True:
            content = b""
            while len(content) < 4:
                va = self.argv + 4 * len(addresses) + len(content) & 0xFFFFFFFF
                if not self.is_inside(va):
                    raise Refused(-INVALID)
                content += yield from self.gathered(va, 4 - len(content), not addresses and not content)
            (address,) = struct.unpack("<I", content)
            if address and len(addresses) == STRINGS_MAX:
                raise Refused(-INVALID)
            yield lambda: self.put_word(PATH_PAGE, ADDRESSES + 4 * len(addresses), address)
            if not address:
                return addresses
            addresses.append(address)

    def taken_string(self, address):
        """Each byte up to the NUL is put into the page of the strings, by a step of its own."""
        string = b""
        while True:
            va = address + len(string) & 0xFFFFFFFF
            if len(string) == PAGE_SIZE or not self.is_inside(va):
                raise Refused(-INVALID)
            content = yield from self.gathered(va, PAGE_SIZE - len(string), not string)
            for byte in content:
                yield lambda: None
                string += bytes([byte])
                if byte == 0:
                    return string

    def taken_strings(self):
        addresses = yield from self.taken_addresses()
        strings = []
        for address in addresses:
            yield lambda: None
            strings.append((yield from self.taken_string(address)))
        # the 0
        yield lambda: None
        return strings

    @staticmethod
    def stack_of(strings):
        """The bytes at the top of the stack: how many strings there are, where their addresses are, these, a 0, and the strings."""
        length = sum(map(len, strings))
        first = STACK_TOP - length
        places = [first + sum(map(len, strings[:k])) for k in range(len(strings))]
        esp = STACK_TOP - (length + 3) // 4 * 4 - 4 * (len(strings) + 1) - 8
        table = struct.pack("<%dI" % (len(strings) + 3), len(strings), esp + 8, *places, 0)
        return table.ljust(STACK_TOP - length - esp, b"\0") + b"".join(strings)

    def taken_stack(self, strings):
        """The page of the child's stack. Of each string its address is put there, and then each byte, which is loaded and stored; at last where the
        addresses are, and how many."""
        content = self.stack_of(strings)
        if not strings or len(content) > PAGE_SIZE:
            raise Refused(-INVALID)
        if answer := (yield lambda: self.allocate(self.me, STACK_PAGE)):
            raise Refused(answer)
        for string in strings:
            yield lambda: None
            for _ in string:
                yield lambda: None
                yield lambda: None
        yield lambda: None
        yield lambda: self.kept(STACK_PAGE, PAGE_SIZE - len(content), content)
        return STACK_TOP - len(content)

    # ---- the file

    def asked(self, kind, page=0):
        """The own id; the request; and the word of the reply, with which a page may come."""
        yield lambda: self.me.id
        while (yield lambda: self.try_to_ask(kind)):
            yield self.pause
        yield lambda: self.wait_for_server(page)
        return (yield lambda: self.me.message[1])

    def opened(self):
        """The lowest descriptor that is free is looked for, and where there is none the file is opened all the same. How many bytes it has."""
        free = 0
        if (yield lambda: self.run.has_descriptors()):
            while free < DESCRIPTORS and (yield lambda: self.run.is_open(free)):
                free += 1
        yield lambda: self.put_word(PATH_PAGE, REQUEST_MODE, 0)
        if answer := (yield from self.asked(OPEN, FIRST_DESCRIPTOR + free if free < DESCRIPTORS else 0)):
            raise Refused(answer)
        if free == DESCRIPTORS:
            raise Refused(-MAX_OPEN)
        self.descriptor = free
        size = yield lambda: self.run.word_of(free, FILE_SIZE)
        if size < HEADER_SIZE:
            raise Refused(-NOT_EXECUTABLE)
        return size

    def part(self, place, size):
        """So many bytes of the file from a place on: fewer are of no image. An error is answered as it is."""
        number = yield lambda: self.run.word_of(self.descriptor, NUMBER)
        for at, word in [(REQUEST_NUMBER, number), (REQUEST_COUNT, size), (REQUEST_PLACE, place)]:
            yield lambda: self.put_word(PATH_PAGE, at, word)
        answer = yield from self.asked(READ_AT)
        if answer >= 0x80000000:
            raise Refused(answer)
        if answer != size:
            raise Refused(-NOT_EXECUTABLE)
        return bytes(self.own_bytes(PATH_PAGE)[:size])

    def headed(self, size):
        """The entry and the program headers, by the words of the header, each of which is loaded; the first that is wrong refuses it."""
        header = yield from self.part(0, HEADER_SIZE)
        entry, place = struct.unpack_from("<2I", header, 24)
        length, number = struct.unpack_from("<2H", header, 42)
        kind, machine = struct.unpack_from("<2H", header, 16)
        is_table = number <= 16 and place + 32 * number <= size
        for is_right in [header[:4] == b"\x7fELF", header[4:6] == b"\1\1", (kind, machine) == (2, 3), True, True, length == 32, is_table]:
            yield lambda: None
            if not is_right:
                raise Refused(-NOT_EXECUTABLE)
        table = yield from self.part(place, 32 * number)
        for _ in range(8 * number):
            yield lambda: None
            yield lambda: None
        return entry, [Header(table, k) for k in range(number)]

    def tested(self, headers, size):
        """The tests of the segments: of each its memory, its place there, how many bytes it has and where, and then that the earlier ones lie elsewhere."""
        for k, header in enumerate(headers):
            if not (yield from self.is_segment(header)):
                continue
            for is_right in [
                any(start <= header.va and header.va + header.in_memory <= end for start, end in RANGES),
                header.in_file <= header.in_memory, header.place + header.in_file <= size,
            ]:
                yield lambda: None
                if not is_right:
                    raise Refused(-NOT_EXECUTABLE)
            for other in headers[:k]:
                if (yield from self.is_segment(other)):
                    yield lambda: None
                    if header.va < other.va + other.in_memory and other.va < header.va + header.in_memory:
                        raise Refused(-NOT_EXECUTABLE)

    @staticmethod
    def is_segment(header):
        """Its kind is loaded, and of one that is loaded how much memory it has."""
        yield lambda: None
        if header.kind != LOADED:
            return False
        yield lambda: None
        return header.in_memory > 0

    # ---- the child

    def begun(self, entry, esp):
        """A child without pages, which has its registers: their record is put into the own page first. Where there is none, that it was tried is a step."""
        child = yield lambda: self.run.make(self.me.id)
        if isinstance(child, int):
            raise Refused(self.run.wanting(child))
        self.child = child
        for _ in range(RECORD_WORDS):
            yield lambda: None
        yield lambda: self.set_registers(entry, esp)

    def set_registers(self, entry, esp):
        self.child.processor = Processor(entry, esp, self.me.processor.calls)

    def loaded_segments(self, headers):
        for header in headers:
            if (yield from self.is_segment(header)):
                # its address
                yield lambda: None
                for page in header.pages():
                    if answer := (yield lambda: self.allocate(self.child, page)):
                        raise Refused(answer)
        for header in headers:
            if (yield from self.is_segment(header)):
                # its length
                yield lambda: None
                for done in range(0, header.in_file, TRANSFER_MAX):
                    yield from self.put_piece(header, done, min(done + TRANSFER_MAX, header.in_file))

    def put_piece(self, header, done, end):
        """Its place is loaded, it is read, its address is loaded, and then each page of the child's is mapped and a word put, where it lies whole at a
        multiple of four, which the own page may have in two of its words; else a byte. At last the length is loaded again."""
        yield lambda: None
        content, begins = (yield from self.part(header.place + done, end - done)), done
        yield lambda: None
        while done < end:
            va = header.va + done
            if done == begins or va % PAGE_SIZE == 0:
                # the table is there
                assert (yield lambda: self.map(self.child, va >> 12, self.me, HERE_PAGE, P | U | W)) == 0
            size = 4 if va % 4 == 0 and end - done >= 4 else 1
            for _ in range(2 if size == 4 and done % 4 else 1):
                yield lambda: None
            yield lambda: self.kept(HERE_PAGE, va % PAGE_SIZE, content[done - begins:done - begins + size])
            done += size
        yield lambda: self.unmap(HERE_PAGE)
        yield lambda: None

    def without_rights(self, headers):
        """The pages of a segment that is not written lose the right, but where one that is written has a part of the first or the last."""
        for header in headers:
            if not (yield from self.is_unwritten(header)):
                continue
            pages = header.pages()
            first, end = pages.start, pages.stop
            for other in headers:
                if (yield from self.is_written(other)):
                    last = end - 1
                    first += first in other.pages()
                    end -= last in other.pages()
                    if first >= end:
                        break
            for page in range(first, end):
                if answer := (yield lambda: self.map(self.child, page, self.child, page, P | U)):
                    raise Refused(answer)

    @staticmethod
    def is_unwritten(header):
        """Kind, flags, memory and address, up to the first that tells that it is none."""
        for goes_on in [header.kind == LOADED, not header.flags & WRITTEN, header.in_memory > 0, True]:
            yield lambda: None
            if not goes_on:
                return False
        return True

    @staticmethod
    def is_written(header):
        for goes_on in [header.kind == LOADED, header.flags & WRITTEN, header.in_memory > 0, True]:
            yield lambda: None
            if not goes_on:
                return False
        return True

    def finished(self):
        """The stack of the handler, the handler, the stack; the own pages are given back."""
        if answer := (yield lambda: self.allocate(self.child, EXCEPTION_STACK >> 12)):
            raise Refused(answer)
        yield lambda: None
        if answer := (yield lambda: self.map(self.me, STACK_PAGE, self.child, (STACK_TOP >> 12) - 1, P | U | W)):
            raise Refused(answer)
        for page in [STACK_PAGE, GIVEN_PAGE, PATH_PAGE]:
            yield lambda: self.unmap(page)

    def passed_on(self):
        """The own pages that are shared, downwards."""
        top = (STACK_TOP >> 12) - 1
        for region in range(top >> 10, -1, -1):
            if not (yield lambda: self.has_table(region)):
                continue
            for page in range(min(region << 10 | 1023, top), (region << 10) - 1, -1):
                entry = yield lambda: self.entries().get(page)
                if entry is not None and entry[1] & SHARED:
                    if answer := (yield lambda: self.map(self.me, page, self.child, page, entry[1] & (P | U | W | AVAILABLE))):
                        raise Refused(answer)

    def run_child(self):
        self.child.status = "runnable"
        return self.child.id

    # ---- all

    def made(self):
        yield lambda: self.me.id
        if not self.is_inside(self.path):
            return -INVALID
        try:
            yield from self.taken_path()
        except Refused as refused:
            return refused.answer
        if answer := (yield lambda: self.allocate(self.me, GIVEN_PAGE)):
            yield lambda: self.unmap(PATH_PAGE)
            return answer
        try:
            esp = yield from self.taken_stack((yield from self.taken_strings()))
        except Refused as refused:
            yield from self.given_back([GIVEN_PAGE, PATH_PAGE])
            return refused.answer
        try:
            size = yield from self.opened()
            entry, headers = yield from self.headed(size)
            yield from self.tested(headers, size)
            yield from self.begun(entry, esp)
            yield from self.loaded_segments(headers)
            yield from self.without_rights(headers)
            yield from self.finished()
            yield lambda: self.unmap(FIRST_DESCRIPTOR + self.descriptor)
            self.descriptor = None
            yield from self.passed_on()
            return (yield self.run_child)
        except Refused as refused:
            if self.child is not None:
                yield lambda: self.run.destroy(self.child)
            if self.descriptor is not None:
                yield lambda: self.unmap(FIRST_DESCRIPTOR + self.descriptor)
            yield from self.given_back([STACK_PAGE, GIVEN_PAGE, PATH_PAGE])
            return refused.answer

    def given_back(self, pages):
        for page in pages:
            yield lambda: self.unmap(page)
