"""A model of the processor: every instruction of docs/machine-profile.md, one step at a time.

It is written after that page, in its order, and after docs/machine.md; the tables at the end say which bytes are
which. What is no instruction is trap 6. Whose memory it is says another: it is handed over with each step, and refuses
what may not be reached. All that an instruction reaches for is reached before anything is read, and reaching may change
what is read at UVPT; so what stands at one place is read again when another was reached.
"""
import struct

from machine import EAX, EBP, ECX, EDI, EDX, ESI, ESP, MASK, Trap

CF, PF, AF, ZF, SF, DF, OF = 0x001, 0x004, 0x010, 0x040, 0x080, 0x400, 0x800
TAKEN = CF | PF | AF | ZF | SF | DF | OF  # the flags that POPF takes
DIVIDE, BREAKPOINT, ILLEGAL, GENERAL = 0, 3, 6, 13
PAGE_SIZE = 4096
SERVICE = 0x40  # the call of the library
LONGEST = 11  # bytes of an instruction

ADD, OR, ADC, SBB, AND, SUB, XOR, CMP = range(8)
ROL, ROR, SHL, SHR, SAR = 0, 1, 4, 5, 7
INC, DEC = ADD, SUB  # of 1, but for CF

# PF, by the low byte of a result
PARITY = [0 if bin(byte).count("1") % 2 else PF for byte in range(256)]
# the conditions 0, 2, 4, .. 10 hold where one of these flags is set
SET_IN_CONDITION = [OF, CF, ZF, CF | ZF, SF, PF]


def signed(number, bits=32):
    return number - (1 << bits) if number >> (bits - 1) else number


def size_of(code):
    """The bytes of an operand: the lowest bit of most opcodes says it."""
    return 4 if code & 1 else 1


class Processor:
    """Registers, and one step over a memory, which has `fetch`, `read` (as a write, where what is read is changed then)
    and `write`. INT of one of the vectors `calls` is a call; of any other it is a trap."""

    def __init__(self, eip, esp, calls=frozenset({SERVICE})):
        self.registers, self.eip, self.flags, self.calls = [0] * 8, eip, 0x202, calls
        self.registers[ESP] = esp
        self.code, self.taken = b"", 0  # what is fetched of the instruction under way, and how many bytes it has
        self.target = None  # where it goes on, if that is elsewhere

    # ---- a step

    def step(self, memory):
        """One instruction, or one repetition. Answers the vector of a call, or None; a trap changes no register."""
        registers, flags = self.registers[:], self.flags
        try:
            vector = self.execute(memory)
        except Exception:
            self.registers, self.flags = registers, flags
            raise
        self.eip = self.behind() if self.target is None else self.target
        return vector

    def execute(self, memory):
        """Bytes that lie in its page are fetched at once: all of a page can be reached where one can."""
        self.code = memory.fetch(self.eip, min(LONGEST, PAGE_SIZE - self.eip % PAGE_SIZE))
        self.taken, self.target = 1, None
        code = self.code[0]
        return OPCODES[code](self, memory, code)

    def take(self, memory, length):
        """The next bytes of the instruction, as a number. Those in the next page are fetched one by one."""
        first, self.taken = self.taken, self.taken + length
        while len(self.code) < self.taken:
            self.code += memory.fetch(self.eip + len(self.code) & MASK, 1)
        return int.from_bytes(self.code[first:self.taken], "little")

    def take_signed(self, memory):
        """A byte, extended to a word."""
        return signed(self.take(memory, 1), 8) & MASK

    def behind(self):
        """The address of the next instruction."""
        return self.eip + self.taken & MASK

    def illegal(self, *_):
        raise Trap(ILLEGAL, 0, self.eip)

    def second_byte(self, memory, _):
        code = self.take(memory, 1)
        return BEHIND_0F[code](self, memory, code)

    # ---- operands: an address in memory, or below 0 a register, by its number less 8

    def modrm(self, memory, digits=range(8)):
        """The digit, which is one of these, and the operand."""
        byte = self.take(memory, 1)
        mod, digit, base = byte >> 6, byte >> 3 & 7, byte & 7
        if digit not in digits:
            self.illegal()
        if mod == 3:
            return digit, base - 8
        address = 0
        if base == 4:
            sib = self.take(memory, 1)
            index, base = sib >> 3 & 7, sib & 7
            if index != 4:
                address = self.registers[index] << (sib >> 6)
        if mod == 0 and base == 5:
            return digit, address + self.take(memory, 4) & MASK
        address += self.registers[base]
        if mod == 1:
            address += self.take_signed(memory)
        elif mod == 2:
            address += self.take(memory, 4)
        return digit, address & MASK

    def register(self, number, size):
        if size == 4:
            return self.registers[number]
        if size == 2:
            return self.registers[number] & 0xFFFF
        return self.registers[number & 3] >> (8 if number & 4 else 0) & 255

    def set_register(self, number, size, value):
        if size == 4:
            self.registers[number] = value & MASK
        else:
            shift = 8 if number & 4 else 0
            self.registers[number & 3] = self.registers[number & 3] & ~(255 << shift) | (value & 255) << shift

    def get(self, memory, operand, size, changes=False):
        """The number in an operand; one that is changed then is reached for once, for a write."""
        if operand < 0:
            return self.register(operand & 7, size)
        return int.from_bytes(memory.read(operand, size, changes), "little")

    def put(self, memory, operand, size, value):
        if operand < 0:
            self.set_register(operand & 7, size, value)
        else:
            memory.write(operand, (value & MASK).to_bytes(4, "little")[:size])

    # ---- flags

    def set_flags(self, mask, flags):
        self.flags = self.flags & ~mask | flags

    def holds(self, c):
        """Whether a condition does."""
        kind = c >> 1
        if kind < 6:
            found = self.flags & SET_IN_CONDITION[kind] != 0
        else:
            found = (self.flags & SF != 0) != (self.flags & OF != 0) or (kind == 7 and self.flags & ZF != 0)
        return found != bool(c & 1)

    @staticmethod
    def told(result, size):
        """PF, ZF and SF of a result."""
        return PARITY[result & 255] | (0 if result else ZF) | (SF if result >> 8 * size - 1 else 0)

    # ---- operations

    def operate(self, k, size, a, b):
        """The result of one of the eight operations, with its flags."""
        if k in (OR, AND, XOR):
            result = a | b if k == OR else a & b if k == AND else a ^ b
            self.set_flags(CF | PF | ZF | SF | OF, self.told(result, size))
            return result
        carry = self.flags & CF if k in (ADC, SBB) else 0
        whole = a + b + carry if k in (ADD, ADC) else a - b - carry
        result = whole & (1 << 8 * size) - 1
        # the sign that does not fit: that of two terms alike, or that of what is taken from another
        other = ~b if k in (ADD, ADC) else b
        over = (a ^ other) & (a ^ result) & 1 << 8 * size - 1
        # a carry into bit 4, or a borrow from it, turns it
        flags = (CF if whole != result else 0) | (a ^ b ^ whole) & AF | (OF if over else 0)
        self.set_flags(CF | PF | AF | ZF | SF | OF, flags | self.told(result, size))
        return result

    def arithmetic(self, memory, k, size, to, value):
        """An operation on an operand, which CMP leaves as it was."""
        result = self.operate(k, size, self.get(memory, to, size, k != CMP), value)
        if k != CMP:
            self.put(memory, to, size, result)

    def operation_on_operand(self, memory, code):
        digit, operand = self.modrm(memory)
        size = size_of(code)
        self.arithmetic(memory, code >> 3, size, operand, self.register(digit, size))

    def operation_on_register(self, memory, code):
        digit, operand = self.modrm(memory)
        size = size_of(code)
        self.arithmetic(memory, code >> 3, size, digit - 8, self.get(memory, operand, size))

    def operation_on_accumulator(self, memory, code):
        size = size_of(code)
        self.arithmetic(memory, code >> 3, size, EAX - 8, self.take(memory, size))

    def operation_with_immediate(self, memory, code):
        digit, operand = self.modrm(memory)
        size = size_of(code)
        value = self.take_signed(memory) if code == 0x83 else self.take(memory, size)
        self.arithmetic(memory, digit, size, operand, value)

    def count(self, memory, operand, size, k):
        """INC and DEC: an operation with 1 that keeps CF."""
        kept = self.flags & CF
        result = self.operate(k, size, self.get(memory, operand, size, True), 1)
        self.put(memory, operand, size, result)
        self.set_flags(CF, kept)

    def count_register(self, memory, code):
        self.count(memory, (code & 7) - 8, 4, INC if code < 0x48 else DEC)

    def test(self, memory, code):
        if code >= 0xA8:
            operand, value = EAX - 8, self.take(memory, size_of(code))
        else:
            digit, operand = self.modrm(memory)
            value = self.register(digit, size_of(code))
        self.operate(AND, size_of(code), self.get(memory, operand, size_of(code)), value)

    def group_of_f6(self, memory, code):
        digit, operand = self.modrm(memory, (0, 2, 3, 4, 5, 6, 7))
        size = size_of(code)
        value = self.take(memory, size) if digit == 0 else None
        old = self.get(memory, operand, size, digit in (2, 3))
        if digit == 0:
            self.operate(AND, size, old, value)
        elif digit == 2:
            self.put(memory, operand, size, ~old)
        elif digit == 3:
            self.put(memory, operand, size, self.operate(SUB, size, 0, old))
        elif digit < 6:
            self.multiply(size, old, digit == 5)
        else:
            self.divide(size, old, digit == 7)

    def group_of_fe(self, memory, code):
        digit, operand = self.modrm(memory, (0, 1) if code == 0xFE else (0, 1, 2, 4, 6))
        if digit < 2:
            self.count(memory, operand, size_of(code), INC if digit == 0 else DEC)
        elif digit == 2:
            self.target = self.get_and_push(memory, operand, self.behind())
        elif digit == 4:
            self.target = self.get(memory, operand, 4)
        else:
            self.get_and_push(memory, operand)

    # ---- products and quotients: of AX, or of EDX and EAX

    def set_halves(self, size, low, high):
        if size == 1:
            self.registers[EAX] = self.registers[EAX] & ~0xFFFF | (high & 255) << 8 | low & 255
        else:
            self.registers[EAX], self.registers[EDX] = low & MASK, high & MASK

    def set_too_long(self, is_too_long):
        self.set_flags(CF | OF, CF | OF if is_too_long else 0)

    def multiply(self, size, value, is_signed):
        bits = 8 * size
        accumulator = self.register(EAX, size)
        product = signed(accumulator, bits) * signed(value, bits) if is_signed else accumulator * value
        low = product & (1 << bits) - 1
        self.set_halves(size, low, product >> bits)
        self.set_too_long(product != (signed(low, bits) if is_signed else low))

    def divide(self, size, divisor, is_signed):
        """The quotient is rounded towards 0, and the remainder has the sign of the dividend."""
        bits = 8 * size
        dividend = self.registers[EAX] & 0xFFFF if size == 1 else self.registers[EDX] << 32 | self.registers[EAX]
        if is_signed:
            dividend, divisor = signed(dividend, 2 * bits), signed(divisor, bits)
        if divisor == 0:
            raise Trap(DIVIDE, 0, self.eip)
        quotient = abs(dividend) // abs(divisor)
        if (dividend < 0) != (divisor < 0):
            quotient = -quotient
        least, most = (-1 << bits - 1, (1 << bits - 1) - 1) if is_signed else (0, (1 << bits) - 1)
        if not least <= quotient <= most:
            raise Trap(DIVIDE, 0, self.eip)
        self.set_halves(size, quotient, dividend - quotient * divisor)

    def multiply_register(self, memory, code):
        """IMUL of two numbers: the operand, and the register or an immediate."""
        digit, operand = self.modrm(memory)
        if code == 0xAF:
            value = self.registers[digit]
        else:
            value = self.take(memory, 4) if code == 0x69 else self.take_signed(memory)
        product = signed(value) * signed(self.get(memory, operand, 4))
        self.registers[digit] = product & MASK
        self.set_too_long(product != signed(product & MASK))

    def extend_accumulator(self, _, code):
        if code == 0x98:
            self.registers[EAX] = signed(self.registers[EAX] & 0xFFFF, 16) & MASK
        else:
            self.registers[EDX] = MASK if self.registers[EAX] >> 31 else 0

    # ---- shifts: their counts are taken modulo 32, and one by 0 changes nothing, though it writes

    def shift(self, memory, code):
        k, operand = self.modrm(memory, (ROL, ROR, SHL, SHR, SAR))
        size, bits = size_of(code), 8 * size_of(code)
        count = (self.take(memory, 1) if code < 0xD0 else 1 if code < 0xD2 else self.registers[ECX]) & 31
        old = self.get(memory, operand, size, True)
        if count == 0:
            self.put(memory, operand, size, old)
        elif k in (ROL, ROR):
            up = (count if k == ROL else -count) % bits
            result = (old << up | old >> bits - up) & (1 << bits) - 1
            self.put(memory, operand, size, result)
            top, second = result >> bits - 1, result >> bits - 2 & 1
            carry = result & 1 if k == ROL else top
            self.set_flags(CF, CF if carry else 0)
            self.set_overflow(count, carry != (top if k == ROL else second))
        else:
            whole = signed(old, bits) if k == SAR else old
            result = (whole << count if k == SHL else whole >> count) & (1 << bits) - 1
            carry = (whole << count >> bits if k == SHL else whole >> count - 1) & 1
            self.put_shifted(memory, operand, size, result, carry)
            top, old_top = result >> bits - 1, old >> bits - 1
            self.set_overflow(count, old_top if k == SHR else k == SHL and carry != top)

    def put_shifted(self, memory, operand, size, result, carry):
        self.put(memory, operand, size, result)
        self.set_flags(CF | PF | ZF | SF, self.told(result, size) | (CF if carry else 0))

    def set_overflow(self, count, is_over):
        """A count of 1 alone says OF."""
        if count == 1:
            self.set_flags(OF, OF if is_over else 0)

    def shift_double(self, memory, code):
        """SHLD and SHRD: the bits that come in are those of the register."""
        digit, operand = self.modrm(memory)
        count = (self.registers[ECX] if code & 1 else self.take(memory, 1)) & 31
        old, other = self.get(memory, operand, 4, True), self.registers[digit]
        if count == 0:
            self.put(memory, operand, 4, old)
        elif code < 0xA8:
            self.put_shifted(memory, operand, 4, (old << count | other >> 32 - count) & MASK, old >> 32 - count & 1)
        else:
            self.put_shifted(memory, operand, 4, (old >> count | other << 32 - count) & MASK, old >> count - 1 & 1)

    # ---- moves

    def move_to_operand(self, memory, code):
        digit, operand = self.modrm(memory)
        self.put(memory, operand, size_of(code), self.register(digit, size_of(code)))

    def move_to_register(self, memory, code):
        digit, operand = self.modrm(memory)
        self.set_register(digit, size_of(code), self.get(memory, operand, size_of(code)))

    def move_at_address(self, memory, code):
        size, address = size_of(code), self.take(memory, 4)
        if code < 0xA2:
            self.set_register(EAX, size, self.get(memory, address, size))
        else:
            self.put(memory, address, size, self.register(EAX, size))

    def set_to_immediate(self, memory, code):
        size = 1 if code < 0xB8 else 4
        self.set_register(code & 7, size, self.take(memory, size))

    def put_immediate(self, memory, code):
        _, operand = self.modrm(memory, (0,))
        self.put(memory, operand, size_of(code), self.take(memory, size_of(code)))

    def move_extended(self, memory, code):
        digit, operand = self.modrm(memory)
        size = 2 if code & 1 else 1
        value = self.get(memory, operand, size)
        self.registers[digit] = value if code < 0xB8 else signed(value, 8 * size) & MASK

    def exchange(self, memory, code):
        digit, operand = self.modrm(memory)
        size = size_of(code)
        old = self.get(memory, operand, size, True)
        self.put(memory, operand, size, self.register(digit, size))
        self.set_register(digit, size, old)

    def exchange_with_accumulator(self, _, code):
        """Of EAX with itself that is NOP."""
        number, registers = code & 7, self.registers
        registers[EAX], registers[number] = registers[number], registers[EAX]

    def load_address(self, memory, _):
        digit, operand = self.modrm(memory)
        if operand < 0:
            self.illegal()
        self.registers[digit] = operand

    def set_on_condition(self, memory, code):
        _, operand = self.modrm(memory)
        self.put(memory, operand, 1, int(self.holds(code & 15)))

    # ---- the stack

    def push(self, memory, value):
        below = self.registers[ESP] - 4 & MASK
        memory.write(below, value.to_bytes(4, "little"))
        self.registers[ESP] = below

    def pop(self, memory):
        value = int.from_bytes(memory.read(self.registers[ESP], 4), "little")
        self.registers[ESP] = self.registers[ESP] + 4 & MASK
        return value

    @staticmethod
    def read_again(memory, first, second, size, changes):
        """The number at the first of two places, when the second was reached for, too."""
        memory.read(first, size)
        memory.read(second, size, changes)
        return int.from_bytes(memory.read(first, size), "little")

    def get_and_push(self, memory, operand, pushed=None):
        """A word is pushed, or else what the operand has, which was reached before that; what it has is answered."""
        if operand < 0:
            value = self.registers[operand & 7]
        else:
            value = self.read_again(memory, operand, self.registers[ESP] - 4 & MASK, 4, True)
        self.push(memory, value if pushed is None else pushed)
        return value

    def push_register(self, memory, code):
        self.push(memory, self.registers[code & 7])

    def pop_register(self, memory, code):
        self.registers[code & 7] = self.pop(memory)

    def push_immediate(self, memory, code):
        self.push(memory, self.take(memory, 4) if code == 0x68 else self.take_signed(memory))

    def pop_operand(self, memory, _):
        """The operand's address is made with ESP already raised."""
        esp = self.registers[ESP]
        self.registers[ESP] = esp + 4 & MASK
        _, operand = self.modrm(memory, (0,))
        if operand < 0:
            value = int.from_bytes(memory.read(esp, 4), "little")
        else:
            value = self.read_again(memory, esp, operand, 4, True)
        self.put(memory, operand, 4, value)

    def push_all(self, memory, _):
        below = self.registers[ESP] - 32 & MASK
        memory.write(below, struct.pack("<8I", *reversed(self.registers)))
        self.registers[ESP] = below

    def pop_all(self, memory, _):
        esp = self.registers[ESP]
        self.registers = list(reversed(struct.unpack("<8I", memory.read(esp, 32))))
        self.registers[ESP] = esp + 32 & MASK

    def push_flags(self, memory, _):
        self.push(memory, self.flags)

    def pop_flags(self, memory, _):
        self.set_flags(TAKEN, self.pop(memory) & TAKEN)

    def leave(self, memory, _):
        ebp = self.registers[EBP]
        self.registers[EBP] = int.from_bytes(memory.read(ebp, 4), "little")
        self.registers[ESP] = ebp + 4 & MASK

    # ---- calls and jumps

    def jump_on_condition(self, memory, code):
        """The distance is a byte, or a word behind 0F."""
        distance = self.take_signed(memory) if code < 0x80 else self.take(memory, 4)
        if self.holds(code & 15):
            self.target = self.behind() + distance & MASK

    def jump(self, memory, code):
        distance = self.take_signed(memory) if code == 0xEB else self.take(memory, 4)
        self.target = self.behind() + distance & MASK

    def call(self, memory, _):
        distance = self.take(memory, 4)
        self.push(memory, self.behind())
        self.target = self.behind() + distance & MASK

    def go_back(self, memory, code):
        """RET, which may drop bytes more."""
        dropped = self.take(memory, 2) if code == 0xC2 else 0
        self.target = self.pop(memory)
        self.registers[ESP] = self.registers[ESP] + dropped & MASK

    def interrupt(self, memory, code):
        vector = BREAKPOINT if code == 0xCC else self.take(memory, 1)
        if vector == BREAKPOINT:
            raise Trap(BREAKPOINT, 0, self.behind())
        if vector in self.calls:
            return vector
        raise Trap(GENERAL, 8 * vector + 2, self.eip)

    # ---- strings

    def string(self, memory, code):
        """MOVS, CMPS, STOS, LODS and SCAS, once; ESI and EDI go on where they are used."""
        size, kind = size_of(code), code & ~1
        esi, edi = self.registers[ESI], self.registers[EDI]
        if kind == 0xA4:
            self.put(memory, edi, size, self.read_again(memory, esi, edi, size, True))
        elif kind == 0xA6:
            self.operate(CMP, size, self.read_again(memory, esi, edi, size, False), self.get(memory, edi, size))
        elif kind == 0xAA:
            self.put(memory, edi, size, self.register(EAX, size))
        elif kind == 0xAC:
            self.set_register(EAX, size, self.get(memory, esi, size))
        else:
            self.operate(CMP, size, self.register(EAX, size), self.get(memory, edi, size))
        step = -size if self.flags & DF else size
        if kind in (0xA4, 0xA6, 0xAC):
            self.registers[ESI] = esi + step & MASK
        if kind != 0xAC:
            self.registers[EDI] = edi + step & MASK

    def repeated(self, memory, prefix):
        """One repetition, behind which EIP stays unless it was the last. A comparison ends it, too: behind F3 where the
        two are not equal, and behind F2 where they are."""
        code = self.take(memory, 1)
        compares = code in (0xA6, 0xA7, 0xAE, 0xAF)
        if prefix == 0xF3 and code in (0x90, 0xC3):
            OPCODES[code](self, memory, code)
        elif not compares and (prefix == 0xF2 or code not in (0xA4, 0xA5, 0xAA, 0xAB, 0xAC, 0xAD)):
            self.illegal()
        elif self.registers[ECX]:
            self.string(memory, code)
            self.registers[ECX] -= 1
            goes_on = not compares or (self.flags & ZF != 0) == (prefix == 0xF3)
            if self.registers[ECX] and goes_on:
                self.target = self.eip

    # ---- single flags, and what a user program may not do

    def change_flag(self, _, code):
        flag = DF if code >= 0xFC else CF
        if code == 0xF5:
            self.flags ^= CF
        else:
            self.set_flags(flag, flag if code & 1 else 0)

    def nothing_behind_66(self, memory, _):
        if self.take(memory, 1) != 0x90:
            self.illegal()

    def privileged(self, memory, code):
        if 0xE4 <= code < 0xE8:
            self.take(memory, 1)
        raise Trap(GENERAL, 0, self.eip)


def table(rows):
    """What is done where the byte is this one; any other is no instruction."""
    found = [Processor.illegal] * 256
    for does, codes in rows:
        for code in codes:
            found[code] = does
    return found


OPERATIONS = range(0, 0x40, 8)
OPCODES = table([
    (Processor.operation_on_operand, [first + form for first in OPERATIONS for form in (0, 1)]),
    (Processor.operation_on_register, [first + form for first in OPERATIONS for form in (2, 3)]),
    (Processor.operation_on_accumulator, [first + form for first in OPERATIONS for form in (4, 5)]),
    (Processor.operation_with_immediate, [0x80, 0x81, 0x83]),
    (Processor.count_register, range(0x40, 0x50)),
    (Processor.test, [0x84, 0x85, 0xA8, 0xA9]),
    (Processor.group_of_f6, [0xF6, 0xF7]),
    (Processor.group_of_fe, [0xFE, 0xFF]),
    (Processor.multiply_register, [0x69, 0x6B]),
    (Processor.extend_accumulator, [0x98, 0x99]),
    (Processor.shift, [0xC0, 0xC1, 0xD0, 0xD1, 0xD2, 0xD3]),
    (Processor.move_to_operand, [0x88, 0x89]),
    (Processor.move_to_register, [0x8A, 0x8B]),
    (Processor.move_at_address, range(0xA0, 0xA4)),
    (Processor.set_to_immediate, range(0xB0, 0xC0)),
    (Processor.put_immediate, [0xC6, 0xC7]),
    (Processor.exchange, [0x86, 0x87]),
    (Processor.exchange_with_accumulator, range(0x90, 0x98)),
    (Processor.load_address, [0x8D]),
    (Processor.push_register, range(0x50, 0x58)),
    (Processor.pop_register, range(0x58, 0x60)),
    (Processor.push_immediate, [0x68, 0x6A]),
    (Processor.pop_operand, [0x8F]),
    (Processor.push_all, [0x60]),
    (Processor.pop_all, [0x61]),
    (Processor.push_flags, [0x9C]),
    (Processor.pop_flags, [0x9D]),
    (Processor.leave, [0xC9]),
    (Processor.jump_on_condition, range(0x70, 0x80)),
    (Processor.jump, [0xE9, 0xEB]),
    (Processor.call, [0xE8]),
    (Processor.go_back, [0xC2, 0xC3]),
    (Processor.interrupt, [0xCC, 0xCD]),
    (Processor.string, [*range(0xA4, 0xA8), *range(0xAA, 0xB0)]),
    (Processor.repeated, [0xF2, 0xF3]),
    (Processor.change_flag, [0xF5, 0xF8, 0xF9, 0xFC, 0xFD]),
    (Processor.nothing_behind_66, [0x66]),
    (Processor.privileged, [*range(0xE4, 0xE8), *range(0xEC, 0xF0), 0xF4, 0xFA, 0xFB]),
    (Processor.second_byte, [0x0F]),
])
BEHIND_0F = table([
    (Processor.jump_on_condition, range(0x80, 0x90)),
    (Processor.set_on_condition, range(0x90, 0xA0)),
    (Processor.shift_double, [0xA4, 0xA5, 0xAC, 0xAD]),
    (Processor.multiply_register, [0xAF]),
    (Processor.move_extended, [0xB6, 0xB7, 0xBE, 0xBF]),
])
