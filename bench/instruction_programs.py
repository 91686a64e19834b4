"""Random programs of all instructions of docs/machine-profile.md, which compare.py runs beside the model of
library_model.py."""
import pathlib
import re

from images import BASE, CODE, image, word
from library_programs import EAX, EBP, ECX, EDI, EDX, ESI, ESP, STACK, LibraryProgram

PROFILE = pathlib.Path(__file__).resolve().parent.parent / "docs" / "machine-profile.md"
LOG, DATA, SHARED, READ_ONLY = 0x803000, 0x804000, 0x900000, 0x901000
THERE = [(DATA, 0x2000), (SHARED, 0x1000), (STACK, 0x1000)]  # pages that may be written
EDGES = [DATA, DATA + 0x1000, DATA + 0x1000, DATA + 0x2000, SHARED, READ_ONLY, READ_ONLY + 0x1000, STACK,
         STACK + 0x1000]
ELSEWHERE = [0, 0x200000, 0x7FFFFC, 0x801000, 0xCFFFFFFF, 0xD0000000, 0xD0400000, 0xEEBFE000, 0xEEC00000, 0xEF400000,
             0xFFFFFFFD]
EDGE_NUMBERS = [0, 1, 2, 7, 8, 31, 32, 0x7F, 0x80, 0xFF, 0x7FFF, 0x8000, 0xFFFF, 0x7FFFFFFF, 0x80000000, 0xFFFFFF80,
                0xFFFFFFFE, 0xFFFFFFFF]
ROOM, LEAD = 48, 144  # bytes of the instructions between two tellings, and with what comes before them
MASK = 0xFFFFFFFF


def profile():
    """How the document spells each instruction, with the name of its row; strings behind their prefixes, too."""
    spelled, is_prefixed = [], False
    for line in PROFILE.read_text().splitlines():
        cells = [cell.strip() for cell in line.strip("|").split("|")]
        if cells[:2] == ["Bytes", "Row"]:
            is_prefixed = cells[2] == "Prefixes"
        elif len(cells) == 3 and re.match("`[A-Z]", cells[1]):
            names = re.findall("`(.*?)`", cells[1])
            prefixes = re.findall("`(.*?)`", cells[2]) if is_prefixed else []
            for place, spelling in enumerate(re.findall("`(.*?)`", cells[0])):
                name = names[min(place, len(names) - 1)]
                spelled += [(spelling, name)] + [(f"{prefix} {spelling}", name) for prefix in prefixes]
    return spelled


INSTRUCTIONS = profile()
# what ends a program for sure
ENDING = [(spelling, name) for spelling, name in INSTRUCTIONS if re.match("In[AE]|Out|Hlt|Cli|Sti|Int", name)]
GOING_ON = [each for each in INSTRUCTIONS if each not in ENDING]


class InstructionProgram(LibraryProgram):
    """It takes random registers and flags, makes some random instructions, and tells the registers and the flags, again
    and again; at its end it tells its pages. More often than not a child does that, and the parent tells the page that
    they share, however the child has ended.

    It has code in up to three pages, a page where it lays what it tells, and two pages of random bytes."""

    def __init__(self, chance):
        super().__init__(chance, [])
        self.daring = chance.choice([0, 0.002, 0.01, 0.05, 0.5])  # how often it goes where a trap may wait
        self.registers = [0] * 8  # before the first of the instructions
        self.landing = 0  # behind the last

    def dares(self):
        return self.chance.random() < self.daring

    # ---- numbers and places

    def is_there(self, va):
        return any(start <= va <= start + length - 32 for start, length in THERE)

    def place(self):
        """An address of memory."""
        chance = self.chance
        if self.dares():
            return self.usually(0.7, [chance.choice(EDGES) + chance.randrange(-34, 8)], ELSEWHERE) & MASK
        if chance.random() < 0.2:
            return DATA + 0x1000 + chance.randrange(-8, 3)
        start, length = chance.choice(THERE)
        return start + chance.randrange(length - 64) + 32

    def number(self):
        chance = self.chance
        edge_numbers = chance.choices(EDGE_NUMBERS, k=3)
        small, any_word = chance.choice([chance.getrandbits(8), chance.randrange(40)]), chance.getrandbits(32)
        return chance.choice([small, small, any_word, self.landing, *edge_numbers])

    def register_numbers(self):
        """More of those that instructions use for addresses are such ones."""
        chance = self.chance
        numbers = [self.usually(0.4, [self.place()], [self.number()]) for _ in range(8)]
        for register in ESI, EDI, EBP, ESP:
            if chance.random() > self.daring:
                numbers[register] = self.place()
        if chance.random() < 0.85:
            numbers[ECX] = chance.randrange(6)
        if chance.random() < 0.5:
            # so that a quotient may fit, or just not
            numbers[EAX], numbers[EDX] = self.number(), chance.choice([0, 0, 1, MASK])
        return numbers

    # ---- an instruction

    def memory(self, digit, mod, rm):
        """ModRM with what follows of it, and where that is in memory, as the registers are at first."""
        chance, address, sib, base = self.chance, 0, b"", rm
        if rm == ESP:
            scale, index, base = chance.randrange(4), chance.randrange(8), self.usually(0.2, [ESP], range(8))
            sib = bytes([scale << 6 | index << 3 | base])
            if index != ESP:
                address = self.registers[index] << scale
        has_base = mod != 0 or base != EBP
        if has_base:
            address += self.registers[base]
        if mod == 0 and has_base:
            away = b""
        elif mod == 1:
            byte = chance.randrange(-128, 128)
            away, address = bytes([byte & 255]), address + byte
        else:
            place = self.place()
            away, address = word(place - address), place
        return bytes([mod << 6 | digit << 3 | rm]) + sib + away, address & MASK

    def operand(self, digit, is_memory):
        chance = self.chance
        if not is_memory and chance.random() < 0.35:
            return bytes([0xC0 | digit << 3 | chance.randrange(8)])
        while True:
            made, address = self.memory(digit, chance.randrange(3), self.usually(0.2, [ESP], range(8)))
            if self.is_there(address) or chance.random() < self.daring / 4:
                return made

    def distance(self, length):
        """Of a jump: over a few bytes, or anywhere."""
        if self.dares():
            return self.chance.randbytes(length)
        return self.chance.choice([0, 0, 1, 2, 3, 5]).to_bytes(length, "little")

    def digit(self, written, name):
        """What stands in reg of a ModRM byte."""
        if written not in ("/r", "/k"):
            return int(written[1])
        if written == "/k" and name.startswith("Shift") and not self.dares():
            return self.chance.choice([0, 1, 4, 5, 7])
        return self.chance.randrange(8)

    def part(self, written, name):
        """The bytes that one word of a spelling stands for."""
        chance = self.chance
        if written.startswith("/"):
            return self.operand(self.digit(written, name), name == "LeaR32Mem" and not self.dares())
        if written.startswith("8k+"):
            return bytes([8 * chance.randrange(8) + int(written[3:])])
        if written[2:] in ("+rb", "+rd", "+c"):
            return bytes([int(written[:2], 16) + chance.randrange(16 if written.endswith("+c") else 8)])
        if written in ("cb", "cd"):
            return self.distance(1 if written == "cb" else 4)
        if written == "iw":
            return chance.randrange(self.usually(0.9, [40], [65536])).to_bytes(2, "little")
        if written in ("ib", "id"):
            number = self.place() if "Addr" in name else self.number()
            return word(number)[: 1 if written == "ib" else 4]
        return bytes.fromhex(written)

    def instruction(self):
        """Bytes of one: mostly of the profile, and such that it does not end the program; now and then any, or those of
        one with the first or the second changed."""
        chance = self.chance
        if self.dares() and chance.random() < 0.5:
            made, place = chance.choice([chance.randbytes(11), self.from_profile()]), chance.randrange(2)
            return made[:place] + chance.randbytes(1) + made[place + 1:]
        return self.from_profile()

    def from_profile(self):
        chance = self.chance
        spelling, name = chance.choice(ENDING if self.dares() and chance.random() < 0.3 else GOING_ON)
        if name.startswith("Setcc"):
            spelling += " /r"  # any reg is read
        made = b"".join(self.part(written, name) for written in spelling.split())
        if name in ("CallRm32", "JmpRm32") and not self.dares():
            return made[:1] + self.landing_operand(made[1] & 0x38)
        return made

    def landing_operand(self, digit):
        """ModRM with what follows of it, for a jump or a call: a register or a word with the address of the landing."""
        registers = [register for register in range(8) if self.registers[register] == self.landing]
        if registers and self.chance.random() < 0.7:
            return bytes([0xC0 | digit | registers[0]])
        return bytes([digit | 5]) + word(self.cell)

    # ---- a telling

    def add_instructions(self):
        chance = self.chance
        if chance.random() < 0.02 + self.daring:
            where = self.at_edge()
            self.code += b"\xe9" + word(where - CODE - len(self.code) - 5)
        else:
            made = b"".join(self.instruction() for _ in range(chance.choice([1, 1, 1, 2, 3])))
            self.code += made[:ROOM]

    def at_edge(self):
        """Where an instruction is laid, with a jump to the landing behind it: over the end of a page, or up to an end
        that has no page behind it, where the jump is missing, or some of the instruction, too."""
        edge = self.chance.choice([DATA + 0x1000, DATA + 0x2000, STACK + 0x1000])
        content = self.instruction()
        where = edge - self.chance.choice([len(content), self.chance.randint(1, len(content))])
        content += b"\xff\x25" + word(self.cell)
        if edge != DATA + 0x1000:
            content = content[: edge - where]
        front = -len(content) % 4
        self.put(where - front, bytes(front) + content)
        return where

    def telling(self):
        """Registers and flags are taken, instructions are made, and all registers and the flags are told."""
        chance = self.chance
        self.landing = CODE + len(self.code) + LEAD
        self.cell = DATA + 4 * chance.randrange(16, 1000)
        self.registers = self.register_numbers()
        for va in [self.cell, self.registers[ESP]]:
            if self.is_there(va):
                self.put(va, word(self.landing))
        self.set(ESP, STACK + 0x800)
        self.code += b"\x68" + word(chance.getrandbits(32)) + b"\x9d"
        for register, number in enumerate(self.registers):
            self.set(register, number)
        self.add_instructions()
        self.code = self.code.ljust(self.landing - CODE, b"\x90")
        assert CODE + len(self.code) == self.landing
        for register in range(8):
            self.code += bytes([0x89, 0x05 | register << 3]) + word(LOG + 4 * register)
        self.set(ESP, STACK + 0x800)
        self.code += b"\x9c\x8f\x05" + word(LOG + 32) + b"\xfc"
        self.ask(1, LOG, 36)

    def build(self):
        """The image."""
        chance = self.chance
        self.ask(6, SHARED, 3)
        self.ask(6, READ_ONLY, chance.choice([0, 2]))
        if chance.random() < 0.6:
            self.ask(4)
            self.code += b"\x85\xc0\x74\0"  # test eax, je
            begin = len(self.code)
            self.code += b"\x89\xc2"  # mov eax to edx
            self.ask(5)
            self.ask(1, SHARED, 0x1000)
            self.ask(0)
            self.code = self.code[:begin - 1] + bytes([len(self.code) - begin]) + self.code[begin:]
        for _ in range(chance.randint(3, 40) if self.daring < 0.5 else 5):
            self.telling()
        for page in [DATA, DATA + 0x1000, SHARED, STACK]:
            self.ask(1, page, 0x1000)
        self.ask(0)
        assert CODE + len(self.code) <= LOG
        return image(self.code.ljust(DATA - CODE, b"\0") + chance.randbytes(0x2000), DATA + 0x2000 - BASE)
