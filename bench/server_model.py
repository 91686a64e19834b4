"""The file server of library_model.py: what it does for a request, call by call, over its cache of blocks.

It is written after docs/disk.md and docs/library.md, and shares nothing with the code. A job, a flush and the round of requests are
generators of calls: each call is a function without arguments, made by one step, and the step goes on by what came of it. Whether a step
is seen is not told here, but for the act: behind the turns of a run the server goes on up to it.
"""
from model import ACCESSED, DIRTY, INVALID, NO_MEMORY, NOT_RECEIVING, P, PAGE_SIZE, U, W

OPEN, SET_SIZE, READ, WRITE, STAT, REMOVE, SYNC, SEEK, READ_AT = 1, 2, 3, 4, 5, 7, 8, 9, 10  # the words of requests
REQUEST_PAGE, FIRST_BLOCK_PAGE, CACHED = 0x0FFFF, 0x10000, 65536
REQUEST_NUMBER, REQUEST_COUNT, REQUEST_BYTES, REQUEST_PLACE, REQUEST_MODE = 0, 4, 8, 8, 1024  # where the words of a request stand in its page
REGION_PAGES = 1024
PLACES, FIRST_PLACE, OPEN_RECORDS = 1024, 0xD0000, 0x0FFFE  # the table of open files: its places' pages, and that of their records
SHARED = 0x400  # the bit of an entry whose page is shared
DEVICE, OFFSET, MODE, NUMBER, FILE_SIZE = 0, 4, 8, 12, 16  # where the words of a place's page stand
FILE = ord("f")  # what its first word is
NO_DISK, MAX_OPEN, NOT_FOUND, BAD_PATH, EXISTS = 9, 10, 11, 12, 13
CREATE, TRUNCATE, EXCLUSIVE = 0x100, 0x200, 0x400  # bits of a mode

BLOCK, ROOT, RECORD, RECORDS_OF_BLOCK, DIRECT = 4096, 4096 + 8, 256, 16, 10
LONGEST = (DIRECT + 1024) * BLOCK
SIZE, KIND, NUMBERS, INDIRECT = 128, 132, 136, 176  # where the words of a record stand
NAME, STAT_SIZE = 128, 136
LONGEST_NAME, LONGEST_PATH = 127, 1023
TRANSFER_MAX = 4096


def blocks_of(size):
    return (size + BLOCK - 1) // BLOCK


def needs_indirect(size):
    return blocks_of(size) > DIRECT


class NoPage(Exception):
    """No page is to be had for a block, and none is cached that could be given up."""


class FileServer:
    """The environment in slot 0 of a run, with the bytes of its disk."""

    def __init__(self, run, environment, disk):
        self.run, self.environment, self.disk = run, environment, bytearray(disk)
        self.found, self.hand = None, 0  # the block that was found last, and where the hand stands
        self.has_to_act = False  # it was asked, and has not acted yet
        self.blocks = self.place = self.answer = None  # how many the disk has; the place of what is opened; what is replied
        self.requests = self.served()
        self.call = next(self.requests)

    def step(self):
        self.call = self.requests.send(self.call())

    def close(self):
        """Behind the turns: it goes on alone up to its act, and then what is dirty is written. The steps up to the act are counted."""
        steps = 0
        while self.has_to_act:
            self.step()
            steps += 1
        for page in sorted(self.entries()):
            if page >= FIRST_BLOCK_PAGE and self.entries()[page][1] & DIRTY:
                self.write_block(page - FIRST_BLOCK_PAGE)
        return steps

    # ---- calls

    def entries(self):
        return self.run.frames.entries[self.environment.directory]

    def touched(self, page, bits):
        """The bytes of a page, which is there, behind an access."""
        entry = self.entries()[page]
        entry[1] |= bits
        return self.run.frames.bytes[entry[0]]

    def id(self):
        return self.environment.id

    def word_of_message(self):
        return self.environment.message[1]

    def sender(self):
        return self.environment.message[0]

    def own_page(self, page):
        return self.run.frames.bytes[self.entries()[page][0]]

    def own_word(self, page, at):
        return int.from_bytes(self.own_page(page)[at:at + 4], "little")

    def put_own_word(self, page, at, word):
        self.own_page(page)[at:at + 4] = word.to_bytes(4, "little")

    def record_of_place(self, place):
        """Where the record of its file stands; 0 where it never had any."""
        return self.own_word(OPEN_RECORDS, 4 * place)

    def frame_of_place(self, place):
        return self.entries()[FIRST_PLACE + place][0]

    def take_place(self, place):
        """Whether there was a page for it."""
        if self.run.frames.allocate(self.environment.directory, FIRST_PLACE + place, P | U | W | SHARED):
            return True
        self.run.wanting(NO_MEMORY)
        return False

    def give_back_request(self):
        self.run.frames.remove(self.environment.directory, REQUEST_PAGE)

    def receive(self):
        self.environment.receives, self.environment.status = (REQUEST_PAGE * PAGE_SIZE, 0), "not runnable"

    def give_up_turn(self):
        self.environment.status = "runnable"

    def act(self):
        self.has_to_act = False

    def block_bytes(self, block, bits=ACCESSED):
        return self.touched(FIRST_BLOCK_PAGE + block, bits)

    def load(self, at, size):
        return int.from_bytes(self.block_bytes(at // BLOCK)[at % BLOCK:at % BLOCK + size], "little")

    def store(self, at, size, number):
        self.block_bytes(at // BLOCK, ACCESSED | DIRTY)[at % BLOCK:at % BLOCK + size] = number.to_bytes(size, "little")

    def has_table(self, block):
        return FIRST_BLOCK_PAGE + block >> 10 in self.run.frames.regions[self.environment.directory]

    def bits(self, block):
        return self.entries().get(FIRST_BLOCK_PAGE + block, (0, 0))[1]

    def take_page(self, block):
        """Whether there was one."""
        if self.run.frames.allocate(self.environment.directory, FIRST_BLOCK_PAGE + block, P | U | W):
            return True
        self.run.wanting(NO_MEMORY)
        return False

    def map_page(self, block, to):
        """Whether there was a frame for the table, if one was wanted."""
        frame = self.entries()[FIRST_BLOCK_PAGE + block][0]
        if self.run.frames.insert(self.environment.directory, FIRST_BLOCK_PAGE + to, frame, P | U | W):
            return True
        self.run.wanting(NO_MEMORY)
        return False

    def unmap_page(self, block):
        self.run.frames.remove(self.environment.directory, FIRST_BLOCK_PAGE + block)

    def read_block(self, block):
        self.block_bytes(block, ACCESSED | DIRTY)[:] = self.disk[BLOCK * block:BLOCK * block + BLOCK].ljust(BLOCK, b"\0")

    def write_block(self, block):
        self.disk[BLOCK * block:BLOCK * block + BLOCK] = self.block_bytes(block)

    # ---- the cache

    def fetch(self, block):
        """The block gets its page, or is looked up again, where it is not the one that was found last."""
        if self.found == block:
            return
        if not ((yield lambda: self.has_table(block)) and (yield lambda: self.bits(block)) & P):
            yield from self.take(block)
            yield lambda: self.read_block(block)
            yield lambda: self.map_page(block, block)
        self.found = block

    def take(self, block):
        while not (yield lambda: self.take_page(block)):
            if (yield from self.make_room(block)):
                return

    def make_room(self, block):
        """The hand goes round. Whether the block has its page then; else a page was given up for a table."""
        left, begins = CACHED, True
        while True:
            hand = self.hand
            if begins or hand % REGION_PAGES == 0:
                begins = False
                if not (yield lambda: self.has_table(hand)):
                    if not self.goes_round(left, passed := REGION_PAGES - hand % REGION_PAGES):
                        break
                    left -= passed
                    continue
            bits = yield lambda: self.bits(hand)
            if bits & P and bits & (DIRTY | ACCESSED):
                if bits & DIRTY:
                    yield lambda: self.write_block(hand)
                yield lambda: self.map_page(hand, hand)
                self.hand, left, begins = (hand + 1) % CACHED, CACHED, True
            elif bits & P:
                moved = yield lambda: self.map_page(hand, block)
                yield lambda: self.unmap_page(hand)
                self.hand = (hand + 1) % CACHED
                return moved
            else:
                if not self.goes_round(left, 1):
                    break
                left -= 1
        if (yield lambda: self.take_page(block)):
            return True
        self.found = None
        raise NoPage

    def goes_round(self, left, passed):
        """So many blocks that have no page are passed. Whether one is left to look at."""
        self.hand = (self.hand + passed) % CACHED
        return left > passed

    def flush(self):
        block = 0
        while block < CACHED:
            if block % REGION_PAGES == 0 and not (yield lambda: self.has_table(block)):
                block += REGION_PAGES
                continue
            if (yield lambda: self.bits(block)) & DIRTY:
                yield lambda: self.write_block(block)
                yield lambda: self.map_page(block, block)
            block += 1
        self.found = None

    # ---- jobs

    def word(self, at):
        yield from self.fetch(at // BLOCK)
        return (yield lambda: self.load(at, 4))

    def byte(self, at):
        yield from self.fetch(at // BLOCK)
        return (yield lambda: self.load(at, 1))

    def put(self, at, size, number):
        yield from self.fetch(at // BLOCK)
        yield lambda: self.store(at, size, number)

    def given_byte(self, at):
        """A byte of the request."""
        return (yield lambda: self.touched(REQUEST_PAGE, ACCESSED)[at])

    def hand_back(self, at, byte):
        def call():
            self.touched(REQUEST_PAGE, ACCESSED | DIRTY)[at] = byte
        yield call

    def super_block(self):
        for at in (BLOCK, BLOCK + 4, ROOT + KIND):
            word = yield from self.word(at)
            if at == BLOCK + 4:
                self.blocks = word

    def number(self, record, k):
        """That of a block of a file or a directory."""
        if k < DIRECT:
            return (yield from self.word(record + NUMBERS + 4 * k))
        indirect = yield from self.word(record + INDIRECT)
        return (yield from self.word(BLOCK * indirect + 4 * (k - DIRECT)))

    # ---- the way of a path

    def walk(self, mode=None):
        """Where the path of the request leads: the place of a file's record, or the error. With a mode it is opened, and the answer is 0."""
        at = name = 0
        while byte := (yield from self.given_byte(at)):
            at, name = at + 1, 0 if byte == ord("/") else name + 1
            if name > LONGEST_NAME or at > LONGEST_PATH:
                return -BAD_PATH
        yield from self.super_block()
        at, record = 0, ROOT
        while byte := (yield from self.given_byte(at)):
            if byte == ord("/"):
                at += 1
                continue
            if (yield from self.word(record + KIND)) == 0:
                return -NOT_FOUND
            records = (yield from self.word(record + SIZE)) // RECORD
            found, empty = yield from self.seek(record, records, at)
            if found is None:
                if not (yield from self.is_last(at)) or mode is None or not mode & CREATE:
                    return -NOT_FOUND
                return (yield from self.create(record, records, empty, at))
            at, record = found
        if mode is not None and mode & CREATE and mode & EXCLUSIVE:
            return -EXISTS
        if (yield from self.word(record + KIND)) != 0:
            return -INVALID
        if mode is None:
            return record
        if mode & TRUNCATE:
            yield from self.resize(record, 0, True)
        return 0

    def seek(self, directory, records, begins):
        """The place behind a name in the path, and that of its record, or none, where no record has the name; and the first record that is
        empty."""
        empty = None
        for k in range(records):
            if k % RECORDS_OF_BLOCK == 0:
                block = yield from self.number(directory, k // RECORDS_OF_BLOCK)
            record = BLOCK * block + RECORD * (k % RECORDS_OF_BLOCK)
            at = 0
            while (byte := (yield from self.byte(record + at))) or at:
                wanted = yield from self.given_byte(begins + at)
                if wanted in (0, ord("/")):
                    if byte == 0:
                        return (begins + at, record), empty
                    break
                if wanted != byte:
                    break
                at += 1
            if byte == 0 and at == 0 and empty is None:
                empty = k
        return None, empty

    def is_last(self, at):
        """Whether the missing name is the last of the path: that is read on to a byte of another, or to its end."""
        is_behind = False
        while byte := (yield from self.given_byte(at)):
            if byte != ord("/") and is_behind:
                return False
            at, is_behind = at + 1, is_behind or byte == ord("/")
        return True

    def create(self, directory, records, empty, begins):
        """The first empty record, or the first of a new block, becomes that of a new file, whose name begins there in the path."""
        size = records * RECORD
        end = size + BLOCK if empty is None else size
        if end > LONGEST or not (yield from self.has_room(directory, size, end, False)):
            return -NO_DISK
        yield from self.resize(directory, end, False)
        slot = records if empty is None else empty
        block = yield from self.number(directory, slot // RECORDS_OF_BLOCK)
        record, is_over = BLOCK * block + RECORD * (slot % RECORDS_OF_BLOCK), False
        for k in range(1, NAME):
            byte = 0
            if not is_over:
                byte = yield from self.given_byte(begins + k)
                is_over = byte in (0, ord("/"))
            yield from self.put(record + k, 1, 0 if is_over else byte)
        for at in range(NAME, RECORD, 4):
            yield from self.put(record + at, 4, 0)
        first = yield from self.given_byte(begins)
        yield from self.put(record, 1, first)
        return 0

    # ---- blocks of a file or a directory

    def has_room(self, record, size, end, gives_back):
        """Whether it may come to hold the blocks for a size; an indirect block that is not needed may be given back. The free blocks are
        counted, where it comes to hold more."""
        indirect = yield from self.word(record + INDIRECT)
        keeps = needs_indirect(end) or (indirect != 0 and not gives_back)
        more = blocks_of(end) + keeps - blocks_of(size) - (indirect != 0)
        if more <= 0:
            return True
        free = 0
        for first in range(0, self.blocks, 32):
            bits = yield from self.word(2 * BLOCK + first // 8)
            free += sum(bits >> k & 1 for k in range(min(32, self.blocks - first)))
        return more <= free

    def resize(self, record, end, gives_back):
        """One change after another, until the size is this one."""
        while True:
            size = yield from self.word(record + SIZE)
            indirect = yield from self.word(record + INDIRECT)
            has, full = blocks_of(size), min(end, BLOCK * blocks_of(size))
            if gives_back and blocks_of(end) < has:
                yield from self.give_block(record, has - 1)
            elif gives_back and not needs_indirect(end) and indirect:
                yield from self.put(record + INDIRECT, 4, 0)
                yield from self.mark(indirect, True)
            elif gives_back and end < size:
                yield from self.put(record + SIZE, 4, end)
            elif size < full:
                block = yield from self.number(record, size // BLOCK)
                for at in range(size, full):
                    yield from self.put(BLOCK * block + at % BLOCK, 1, 0)
                yield from self.put(record + SIZE, 4, full)
            elif has < blocks_of(end):
                yield from self.take_block(record, has, indirect, end)
            else:
                return

    @staticmethod
    def number_place(record, indirect, k):
        return record + NUMBERS + 4 * k if k < DIRECT else BLOCK * indirect + 4 * (k - DIRECT)

    def give_block(self, record, last):
        given = yield from self.word(record + (NUMBERS + 4 * last if last < DIRECT else INDIRECT))
        indirect = given
        if last >= DIRECT:
            given = yield from self.word(self.number_place(record, indirect, last))
        yield from self.put(record + SIZE, 4, BLOCK * last)
        yield from self.put(self.number_place(record, indirect, last), 4, 0)
        yield from self.mark(given, True)

    def take_block(self, record, has, indirect, end):
        """The lowest that is free; it becomes the indirect block, where one is needed and there is none."""
        taken = yield from self.lowest_free()
        yield from self.mark(taken, False)
        for at in range(0, BLOCK, 4):
            yield from self.put(BLOCK * taken + at, 4, 0)
        if has >= DIRECT and not indirect:
            yield from self.put(record + INDIRECT, 4, taken)
        else:
            yield from self.put(self.number_place(record, indirect, has), 4, taken)
            yield from self.put(record + SIZE, 4, min(end, BLOCK * (has + 1)))

    def lowest_free(self):
        data = 2 + (self.blocks + 8 * BLOCK - 1) // (8 * BLOCK)
        for first in range(0, self.blocks, 32):
            bits = yield from self.word(2 * BLOCK + first // 8)
            for block in range(max(first, data), min(first + 32, self.blocks)):
                if bits >> block - first & 1:
                    return block
        raise AssertionError("the free blocks were counted before")

    def mark(self, block, is_free):
        at, bit = 2 * BLOCK + block // 8, 1 << block % 8
        marks = yield from self.byte(at)
        yield from self.put(at, 1, marks | bit if is_free else marks & ~bit)

    # ---- jobs on a file

    def of_file(self, record):
        """Its size, or an error."""
        yield from self.super_block()
        if (yield from self.word(record + KIND)) != 0:
            return -INVALID
        return (yield from self.word(record + SIZE))

    def remove(self, record):
        """The file's blocks are given back, the last first, and then its record is empty."""
        if (size := (yield from self.of_file(record))) < 0:
            return size
        yield from self.resize(record, 0, True)
        yield from self.put(record, 1, 0)
        return 0

    def set_size(self, record, end):
        if (size := (yield from self.of_file(record))) < 0:
            return size
        if end > LONGEST or not (yield from self.has_room(record, size, end, True)):
            return -NO_DISK
        yield from self.resize(record, end, True)
        return 0

    def read(self, record, at, count):
        if (size := (yield from self.of_file(record))) < 0:
            return size
        count = max(0, min(count, TRANSFER_MAX, size - at))
        for k in range(count):
            if k == 0 or (at + k) % BLOCK == 0:
                block = yield from self.number(record, (at + k) // BLOCK)
            byte = yield from self.byte(BLOCK * block + (at + k) % BLOCK)
            yield from self.hand_back(k, byte)
        return count

    def write(self, record, at, count):
        if (size := (yield from self.of_file(record))) < 0:
            return size
        if count == 0:
            return 0
        if at + count > LONGEST:
            return -NO_DISK
        if at + count > size:
            if not (yield from self.has_room(record, size, at + count, False)):
                return -NO_DISK
            yield from self.resize(record, at + count, False)
        for k in range(count):
            if k == 0 or (at + k) % BLOCK == 0:
                block = yield from self.number(record, (at + k) // BLOCK)
            byte = yield from self.given_byte(REQUEST_BYTES + k)
            yield from self.put(BLOCK * block + (at + k) % BLOCK, 1, byte)
        return count

    def stat(self, record):
        if (size := (yield from self.of_file(record))) < 0:
            return size
        is_over = False
        for k in range(STAT_SIZE):
            byte = yield from self.byte(record + k)
            is_over = is_over or byte == 0
            yield from self.hand_back(k, 0 if is_over and k < NAME else byte)
        return 0

    # ---- requests

    def served(self):
        while True:
            yield self.give_back_request
            yield self.receive
            kind = yield self.word_of_message
            client = yield self.sender
            self.place = None  # of the file that is opened
            try:
                answer = yield from self.done(kind)
            except NoPage:
                answer = -NO_MEMORY
            if answer is not None:
                yield self.act
                self.answer = answer
            yield from self.reply(client)

    def has_acted(self, answer):
        """The step under way was the act."""
        self.has_to_act, self.answer = False, answer

    def reply(self, client):
        """With the page of what was opened. Where the client has no frame for a table, that is the answer, without the page."""
        while True:
            goes = self.answer == 0 and self.place is not None
            va = (FIRST_PLACE + self.place) * PAGE_SIZE if goes else 0
            told = yield lambda: self.run.try_to_send(client, self.answer & 0xFFFFFFFF, va)
            if told == -NOT_RECEIVING:
                yield self.give_up_turn
            elif told == -NO_MEMORY and self.answer != told:
                self.answer = told
            else:
                return

    def done(self, kind):
        """What is asked for, up to the act. Its answer; or none, where a step of it was the act."""
        if kind == SYNC:
            yield from self.flush()
            return 0
        if kind == OPEN:
            return (yield from self.opened())
        if kind == REMOVE:
            return (yield from self.removed())
        place = (yield lambda: self.own_word(REQUEST_PAGE, REQUEST_NUMBER)) % PLACES
        offset_at = (REQUEST_PAGE, REQUEST_PLACE) if kind == READ_AT else (FIRST_PLACE + place, OFFSET)
        offset = yield lambda: self.own_word(*offset_at)
        count = yield lambda: self.own_word(REQUEST_PAGE, REQUEST_COUNT)
        if kind == SEEK:
            yield lambda: self.put_own_word(FIRST_PLACE + place, OFFSET, count)
            return self.has_acted(0)
        record = yield lambda: self.record_of_place(place)
        if kind == SET_SIZE:
            return (yield from self.set_size(record, count))
        if kind == STAT:
            return (yield from self.stat(record))
        if kind == READ_AT:
            return (yield from self.read(record, offset, count))
        assert kind in (READ, WRITE)
        moved = yield from (self.read if kind == READ else self.write)(record, offset, count)
        if moved < 0:
            return moved
        now = yield lambda: self.own_word(FIRST_PLACE + place, OFFSET)
        yield lambda: self.put_own_word(FIRST_PLACE + place, OFFSET, (now + moved) % 2 ** 32)
        return self.has_acted(moved)

    def is_held(self, place):
        """By another beside the server: it looks at the entry of the place's page, and how often that is mapped."""
        frame = yield lambda: self.frame_of_place(place)
        return (yield lambda: self.run.frames.count(frame)) >= 2

    def opened(self):
        place = 0
        while (yield lambda: self.record_of_place(place)):
            if not (yield from self.is_held(place)):
                break
            if place + 1 == PLACES:
                return self.has_acted(-MAX_OPEN)
            place += 1
        else:
            if not (yield lambda: self.take_place(place)):
                return -NO_MEMORY
        mode = yield lambda: self.own_word(REQUEST_PAGE, REQUEST_MODE)
        if answer := (yield from self.walk(mode)):
            return answer
        if (record := (yield from self.walk())) < 0:
            return record
        yield lambda: self.put_own_word(OPEN_RECORDS, 4 * place, record)
        yield lambda: self.put_own_word(FIRST_PLACE + place, DEVICE, FILE)
        mode = yield lambda: self.own_word(REQUEST_PAGE, REQUEST_MODE)
        yield lambda: self.put_own_word(FIRST_PLACE + place, MODE, mode % 4)
        yield lambda: self.put_own_word(FIRST_PLACE + place, NUMBER, place)
        record = yield lambda: self.record_of_place(place)
        if (size := (yield from self.of_file(record))) < 0:
            return size
        yield lambda: self.put_own_word(FIRST_PLACE + place, FILE_SIZE, size)
        yield lambda: self.put_own_word(FIRST_PLACE + place, OFFSET, 0)
        self.place = place
        return self.has_acted(0)

    def removed(self):
        record = yield from self.walk()
        if record < 0:
            return record
        for place in range(PLACES):
            if (yield lambda: self.record_of_place(place)) == record and (yield from self.is_held(place)):
                return self.has_acted(-INVALID)
        return (yield from self.remove(record))
