"""A model of `jos exo`: the exokernel, and the environments that it boots.

It is written after docs/, with dictionaries in place of tables and frames, and shares nothing with the code. The processor is that of
processor.py.
"""
import itertools
import struct

from images import pages_of, segments_of
from machine import EAX, EBP, EBX, ECX, EDI, EDX, ESI, ESP, MASK, PageFault, Trap
from processor import Processor

PAGE_SIZE = 4096
RECORD_WORDS = 16
SLOTS = 1024

# bits of an entry
P, W, U, ACCESSED, DIRTY, AVAILABLE = 1, 2, 4, 0x20, 0x40, 0xE00

# addresses
UTOP = UENVS = UXSTACKTOP = 0xEEC00000
UPAGES = 0xEF000000
UVPT = 0xEF400000
EXCEPTION_STACK = UXSTACKTOP - PAGE_SIZE
STACK_TOP = 0xEEBFE000

# answers, which come negated
BAD_ENVIRONMENT, INVALID, NO_MEMORY, NO_ENVIRONMENT, NOT_RECEIVING = 2, 3, 4, 5, 7

FREE, RUNNABLE, RUNNING, NOT_RUNNABLE = 0, 2, 3, 4
SYSTEM_CALL = 0x30  # the vector of INT
TURN_MAX, QUANTUM = 1048576, 1000


class Frames:
    """The frames, and the directories, tables and pages that stand in them."""

    def __init__(self, frames):
        self.number = frames
        self.records = (frames + 511) // 512  # frames that hold the counts
        reserved = self.records + 19
        self.free = list(range(reserved, frames))
        self.single = set(range(reserved))  # what is counted once: reserved frames, directories and tables
        self.names = {}  # frame -> how many entries name it
        self.bytes = {}  # frame of a page -> its bytes
        self.regions = {}  # directory -> {region: [table, accessed]}
        self.entries = {}  # directory -> {page: [frame, bits]}

    def count(self, frame):
        return self.names.get(frame, 0) + (frame in self.single) if frame < self.number else 0

    def take(self):
        return self.free.pop(0) if self.free else None

    def give_back(self, frame):
        self.single.discard(frame)
        self.bytes.pop(frame, None)
        self.free.insert(0, frame)

    def create(self):
        directory = self.take()
        if directory is not None:
            self.single.add(directory)
            self.regions[directory], self.entries[directory] = {}, {}
        return directory

    def drop(self, entry):
        if entry is not None:
            self.names[entry[0]] -= 1
            if self.names[entry[0]] == 0:
                self.give_back(entry[0])

    def insert(self, directory, page, frame, bits):
        """Whether there was a frame for the table, if one was wanted. The old page goes after the new one came."""
        region = page >> 10
        if region not in self.regions[directory]:
            table = self.take()
            if table is None:
                return False
            self.single.add(table)
            self.regions[directory][region] = [table, False]
        old = self.entries[directory].get(page)
        self.names[frame] = self.names.get(frame, 0) + 1
        self.entries[directory][page] = [frame, bits]
        self.drop(old)
        return True

    def allocate(self, directory, page, bits):
        frame = self.take()
        if frame is None:
            return False
        self.bytes[frame] = bytearray(PAGE_SIZE)
        if self.insert(directory, page, frame, bits):
            return True
        self.give_back(frame)
        return False

    def remove(self, directory, page):
        self.drop(self.entries[directory].pop(page, None))

    def destroy(self, directory):
        for page in sorted(self.entries[directory]):
            self.remove(directory, page)
        for region in sorted(self.regions[directory]):
            self.give_back(self.regions[directory][region][0])
        del self.regions[directory], self.entries[directory]
        self.give_back(directory)

    def directory_entry(self, directory, region):
        """The frame and the bits of an entry of the directory, or None."""
        if region in self.regions[directory]:
            table, accessed = self.regions[directory][region]
            return table, P | W | U | (ACCESSED if accessed else 0)
        return {
            UENVS >> 22: (self.records + 17, P | U | ACCESSED),
            UPAGES >> 22: (self.records + 18, P | U | ACCESSED),
            UVPT >> 22: (directory, P | U | ACCESSED),
        }.get(region)

    def entry(self, directory, page):
        """The frame and the bits of the entry of a page, or None, as they are read at UVPT."""
        if page < UTOP >> 12:
            return self.entries[directory].get(page)
        region, index = page >> 10, page & 1023
        if region == UENVS >> 22:
            return (1 + index, P | U | ACCESSED) if index < 16 else None
        if region == UPAGES >> 22:
            return (17 + index, P | U | ACCESSED) if index < self.records else None
        if region == UVPT >> 22:
            return self.directory_entry(directory, index)
        return None


class Environment:
    def __init__(self, identity):
        self.id, self.parent, self.status, self.runs = identity, 0, FREE, 0
        self.processor = Processor(0, 0, {SYSTEM_CALL})
        self.directory, self.handler = 0, 0
        self.receives, self.wanted, self.place = 0, 0, 0
        self.value, self.sender, self.bits = 0, 0, 0

    def record(self):
        return [
            self.id, self.parent, 0, self.status, self.runs, self.directory, self.handler, self.receives,
            self.wanted, self.place, self.value, self.sender, self.bits, 0, 0, 0,
        ]


class Kernel:
    def __init__(self, images, frames, console_input, schedule, steps, traps):
        self.frames = Frames(frames)
        self.slots = [Environment(0) for _ in range(SLOTS)]
        self.free_slots, self.used = list(range(SLOTS)), 0  # how many of the first slots were ever used
        self.input, self.output = list(console_input), bytearray()
        self.schedule, self.steps_left, self.traps_kept = schedule, steps, traps
        self.steps = self.turns = self.refused = self.upcalls = 0
        self.traps, self.now, self.last = [], None, -1
        for image in images:
            self.boot(image)

    # ---- environments

    def make(self, parent):
        """A new environment, or the error that there is none."""
        if not self.free_slots:
            return NO_ENVIRONMENT
        directory = self.frames.create()
        if directory is None:
            return NO_MEMORY
        slot = self.free_slots.pop(0)
        self.used = max(self.used, slot + 1)
        made = Environment(((self.slots[slot].id + PAGE_SIZE) & ~(SLOTS - 1)) + slot)
        made.parent, made.status, made.directory = parent, NOT_RUNNABLE, directory
        self.slots[slot] = made
        return made

    def boot(self, image):
        """The pages of the segments in rising order, of which each may be written where one of the segments in it may, and the stack."""
        entry, segments = segments_of(image)
        made = self.make(0)
        for page, writable in sorted(pages_of(segments).items()):
            assert self.frames.allocate(made.directory, page, P | U | (W if writable else 0))
        for offset, in_file, start, _, _ in segments:
            for place in range(in_file):
                frame = self.frames.entries[made.directory][(start + place) >> 12][0]
                self.frames.bytes[frame][(start + place) % PAGE_SIZE] = image[offset + place]
        assert self.frames.allocate(made.directory, (STACK_TOP >> 12) - 1, P | W | U)
        made.processor.eip, made.processor.registers[ESP], made.status = entry, STACK_TOP, RUNNABLE

    def destroy(self, gone):
        self.frames.destroy(gone.directory)
        slot = self.slots.index(gone)
        self.slots[slot] = Environment(gone.id)
        self.free_slots.insert(0, slot)

    def kill(self, text):
        self.output += b"[%08x] %s\n" % (self.now.id, text.encode())
        self.destroy(self.now)

    def named(self, identity, control):
        """The environment of an id; `control` asks for the caller or a child of its own."""
        if identity == 0:
            return self.now
        found = self.slots[identity % SLOTS]
        if found.status == FREE or found.id != identity:
            return None
        if control and found is not self.now and found.parent != self.now.id:
            return None
        return found

    # ---- memory of the environment that runs

    def reach(self, address, write, mark=True):
        """The frame of the page at an address, where the access is let through."""
        directory, page = self.now.directory, address >> 12
        entry = self.frames.entry(directory, page)
        code = U | (W if write else 0)
        if entry is None:
            raise PageFault(address, code)
        if (write and (page >= UTOP >> 12 or not entry[1] & W)) or not entry[1] & U:
            raise PageFault(address, code | P)
        if mark and page < UTOP >> 12:
            self.frames.regions[directory][page >> 10][1] = True
            entry[1] |= ACCESSED | (DIRTY if write else 0)
        elif mark and page >> 10 == UVPT >> 22 and page & 1023 in self.frames.regions[directory]:
            self.frames.regions[directory][page & 1023][1] = True
        return entry[0]

    def window_word(self, address):
        region, index = address >> 22, (address & 0x3FFFFF) // 4
        if region == UENVS >> 22:
            return self.slots[index // RECORD_WORDS].record()[index % RECORD_WORDS]
        if region == UPAGES >> 22:
            return self.frames.count(index // 2) if index % 2 else 0
        entry = self.frames.entry(self.now.directory, index)
        return 0 if entry is None else entry[0] * PAGE_SIZE + entry[1]

    def byte(self, address):
        frame = self.reach(address, False)
        if address < UTOP:
            return self.frames.bytes[frame][address % PAGE_SIZE]
        return self.window_word(address & ~3) >> 8 * (address & 3) & 255

    def read(self, address, length, changes=False):
        """The bytes, which are written afterwards if they are read to be changed. Those of one page are reached at once."""
        at = address % PAGE_SIZE
        if address < UTOP and 0 < length <= PAGE_SIZE - at:
            return bytes(self.frames.bytes[self.reach(address, changes)][at:at + length])
        if changes:
            for k in range(length):
                self.reach((address + k) & MASK, True)
        return bytes(self.byte((address + k) & MASK) for k in range(length))

    # the bytes of an instruction are reached for one by one too
    fetch = read

    def write(self, address, content):
        at = address % PAGE_SIZE
        if 0 < len(content) <= PAGE_SIZE - at:
            self.frames.bytes[self.reach(address, True)][at:at + len(content)] = content
            return
        places = [(address + k) & MASK for k in range(len(content))]
        frames = [self.reach(place, True) for place in places]
        for place, frame, byte in zip(places, frames, content):
            self.frames.bytes[frame][place % PAGE_SIZE] = byte

    def read_user(self, address, length):
        """What a call reads: nothing is marked where a byte of it can't be read."""
        for k in range(length):
            self.reach((address + k) & MASK, False, mark=False)
        return self.read(address, length)

    # ---- system calls

    def call(self):
        """Makes the call that EAX names. What a call gives is its answer, None where EAX stays as it is."""
        caller = self.now
        number, ecx, edx, ebx, _, _, esi, edi = caller.processor.registers
        calls = {
            0: lambda: self.cputs(edx, ecx),
            1: lambda: self.input.pop(0) if self.input else 4,
            2: lambda: caller.id,
            3: lambda: self.env_destroy(edx),
            4: lambda: self.page_alloc(edx, ecx, ebx),
            5: lambda: self.page_map(edx, ecx, ebx, edi, esi),
            6: lambda: self.page_unmap(edx, ecx),
            7: self.exofork,
            8: lambda: self.env_set_status(edx, ecx),
            9: lambda: self.env_set_trapframe(edx, ecx),
            10: lambda: self.env_set_pgfault_upcall(edx, ecx),
            11: self.give_way,
            12: lambda: self.ipc_try_send(edx, ecx, ebx, edi),
            13: lambda: self.ipc_recv(edx, ecx),
        }
        answer = calls.get(number, lambda: -INVALID)()
        if answer is not None:
            caller.processor.registers[EAX] = answer & MASK

    def out_of_memory(self, error):
        self.refused += 1
        return -error

    def cputs(self, address, length):
        if length > PAGE_SIZE:
            return -INVALID
        try:
            self.output += self.read_user(address, length)
        except PageFault as fault:
            return self.kill("user_mem_check assertion failure for va %08x" % fault.address)
        return 0

    def env_destroy(self, identity):
        target = self.named(identity, True)
        if target is None:
            return -BAD_ENVIRONMENT
        self.destroy(target)
        return None if target is self.now else 0

    def page_alloc(self, identity, address, bits):
        target = self.named(identity, True)
        if target is None:
            return -BAD_ENVIRONMENT
        if not is_page(address) or not are_bits(bits):
            return -INVALID
        if self.frames.allocate(target.directory, address >> 12, bits):
            return 0
        return self.out_of_memory(NO_MEMORY)

    def shared(self, owner, address, bits):
        """The frame that may be passed on with these bits, or None."""
        entry = self.frames.entries[owner.directory].get(address >> 12)
        if entry is None or not are_bits(bits) or (bits & W and not entry[1] & W):
            return None
        return entry[0]

    def page_map(self, source, address, identity, destination, bits):
        owner, target = self.named(source, True), self.named(identity, True)
        if owner is None or target is None:
            return -BAD_ENVIRONMENT
        if not is_page(address) or not is_page(destination):
            return -INVALID
        frame = self.shared(owner, address, bits)
        if frame is None:
            return -INVALID
        if self.frames.insert(target.directory, destination >> 12, frame, bits):
            return 0
        return self.out_of_memory(NO_MEMORY)

    def page_unmap(self, identity, address):
        target = self.named(identity, True)
        if target is None:
            return -BAD_ENVIRONMENT
        if not is_page(address):
            return -INVALID
        self.frames.remove(target.directory, address >> 12)
        return 0

    def exofork(self):
        child = self.make(self.now.id)
        if not isinstance(child, Environment):
            return self.out_of_memory(child)
        child.processor.registers = [0] + self.now.processor.registers[1:]
        child.processor.eip, child.processor.flags = self.now.processor.eip, self.now.processor.flags
        return child.id

    def env_set_status(self, identity, status):
        target = self.named(identity, True)
        if target is None:
            return -BAD_ENVIRONMENT
        if status not in (RUNNABLE, NOT_RUNNABLE):
            return -INVALID
        target.status = status
        return 0

    def env_set_trapframe(self, identity, address):
        target = self.named(identity, True)
        if target is None:
            return -BAD_ENVIRONMENT
        try:
            words = struct.unpack("<17I", self.read_user(address, 68))
        except PageFault as fault:
            return self.kill("user_mem_check assertion failure for va %08x" % fault.address)
        processor = target.processor
        processor.registers = [words[k] for k in (7, 6, 5, 4, 15, 2, 1, 0)]
        processor.eip, processor.flags = words[12], 0x202 | words[14] & 0xCD5
        return 0

    def env_set_pgfault_upcall(self, identity, handler):
        target = self.named(identity, True)
        if target is None:
            return -BAD_ENVIRONMENT
        target.handler = handler
        return 0

    def give_way(self):
        self.now.status = RUNNABLE
        return 0

    def ipc_try_send(self, identity, value, address, bits):
        target = self.named(identity, False)
        if target is None:
            return -BAD_ENVIRONMENT
        if not target.receives or target.wanted not in (0, self.now.id):
            return -NOT_RECEIVING
        passed = 0
        if address < UTOP:
            if not is_page(address):
                return -INVALID
            frame = self.shared(self.now, address, bits)
            if frame is None:
                return -INVALID
            if target.place < UTOP:
                if not self.frames.insert(target.directory, target.place >> 12, frame, bits):
                    return self.out_of_memory(NO_MEMORY)
                passed = bits
        target.receives, target.sender, target.value, target.bits = 0, self.now.id, value, passed
        target.status, target.processor.registers[EAX] = RUNNABLE, 0
        return 0

    def ipc_recv(self, place, wanted):
        if place < UTOP and not is_page(place):
            return -INVALID
        waiting = self.now
        waiting.receives, waiting.place, waiting.wanted, waiting.status = 1, place, wanted, NOT_RUNNABLE
        return None

    # ---- traps

    def fault(self, fault):
        """Hands a page fault to the handler, or ends the environment."""
        failed, processor = self.now, self.now.processor
        self.traps.append((failed.id, 14, fault.error, fault.address, processor.eip))
        esp = processor.registers[ESP]
        frame = UXSTACKTOP - 52 if not EXCEPTION_STACK <= esp < UXSTACKTOP else esp - 56
        if failed.handler and frame >= EXCEPTION_STACK:
            registers = [processor.registers[k] for k in (EDI, ESI, EBP, ESP, EBX, EDX, ECX, EAX)]
            words = [fault.address, fault.error, *registers, processor.eip, processor.flags, esp]
            try:
                self.write(frame, struct.pack("<13I", *words))
            except PageFault:
                pass
            else:
                processor.registers[ESP], processor.eip = frame, failed.handler
                self.upcalls += 1
                return
        self.kill("user fault va %08x ip %08x" % (fault.address, processor.eip))

    def step(self):
        try:
            vector = self.now.processor.step(self)
        except PageFault as fault:
            self.fault(fault)
        except Trap as trap:
            self.traps.append((self.now.id, trap.number, trap.error, 0, trap.address))
            self.kill("trap %d err %x ip %08x" % (trap.number, trap.error, trap.address))
        else:
            if vector is not None:
                self.call()

    # ---- turns

    def run(self):
        """The end."""
        end = None
        while end is None:
            order = itertools.chain(range(self.last + 1, self.used), range(self.last + 1))
            chosen = next((slot for slot in order if self.slots[slot].status == RUNNABLE), None)
            if len(self.free_slots) == SLOTS:
                end = "done"
            elif chosen is None:
                end = "stuck"
            elif self.steps_left == 0:
                end = "budget"
            elif self.turns >= TURN_MAX:
                end = "turns full"
            else:
                end = self.turn(chosen)
        return end

    def notes(self, end):
        return notes_of(self, end)

    def turn(self, slot):
        """A turn of a slot, and `budget` where that cuts it; then the environment stays as it is."""
        self.last, self.now = slot, self.slots[slot]
        left = self.schedule[min(self.turns, len(self.schedule) - 1)]
        self.now.status, self.now.runs = RUNNING, self.now.runs + 1
        self.turns += 1
        while left and self.steps_left and self.runs_on(slot):
            self.step()
            self.steps += 1
            self.steps_left -= 1
            left -= 1
        if not self.runs_on(slot):
            return None
        if left:
            return "budget"
        self.now.status = RUNNABLE
        return None

    def runs_on(self, slot):
        return self.slots[slot] is self.now and self.now.status == RUNNING


def notes_of(run, end):
    """The notes of a run with this end: its last traps, and the line that counts."""
    kept = run.traps[-run.traps_kept:] if run.traps_kept else []
    lines = ["[%08x] trap %d err %x va %08x ip %08x\n" % trap for trap in kept]
    told = "%s steps %d turns %d refused %d upcalls %d\n" % (end, run.steps, run.turns, run.refused, run.upcalls)
    return "".join(lines) + told


def is_page(address):
    return address < UTOP and address % PAGE_SIZE == 0


def are_bits(bits):
    return bits & (P | U) == P | U and bits & ~(P | U | W | AVAILABLE) == 0
