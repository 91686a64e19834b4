"""The names of what a program asks for and of what it is told: calls of the kernel and services of the library, with
their arguments and answers, errors, bits of entries, flags and traps.

The numbers are those of docs/system-calls.md and docs/library.md, the names those of examples/lib/inc and of
examples/library/lib/inc. A number of eight digits is hexadecimal: an address, an id, or a word from 65,536 on. Shorter
ones are decimal.
"""
import struct
from dataclasses import dataclass
from typing import Callable

from machine import EBX, ECX, EDI, EDX, ESI
from model import PAGE_SIZE, UTOP
from server_model import OPEN, READ, READ_AT, REMOVE, SEEK, SET_SIZE, STAT, SYNC, WRITE

REGISTERS = ("eax", "ecx", "edx", "ebx", "esp", "ebp", "esi", "edi")
FLAGS = (
    (0x001, "CF"), (0x004, "PF"), (0x010, "AF"), (0x040, "ZF"), (0x080, "SF"), (0x400, "DF"), (0x800, "OF"),
)
ERRORS = {
    2: "E_BAD_ENV", 3: "E_INVAL", 4: "E_NO_MEM", 5: "E_NO_FREE_ENV", 7: "E_IPC_NOT_RECV", 9: "E_NO_DISK",
    10: "E_MAX_OPEN", 11: "E_NOT_FOUND", 12: "E_BAD_PATH", 13: "E_FILE_EXISTS", 14: "E_NOT_EXEC",
    15: "E_NOT_SUPP",
}
GREATEST_ERROR = max(ERRORS)
BITS = (
    (0x001, "PTE_P"), (0x004, "PTE_U"), (0x002, "PTE_W"), (0x020, "PTE_A"), (0x040, "PTE_D"), (0x400, "PTE_SHARE"),
    (0x800, "PTE_COW"),
)
PAGE_FLAGS = ((1, "PAGE_WRITE"), (2, "PAGE_SHARED"))
ACCESS = ("O_RDONLY", "O_WRONLY", "O_RDWR")
MODES = ((0x100, "O_CREAT"), (0x200, "O_TRUNC"), (0x400, "O_EXCL"))
STATUSES = {0: "ENV_FREE", 2: "ENV_RUNNABLE", 3: "ENV_RUNNING", 4: "ENV_NOT_RUNNABLE"}
REQUESTS = {
    OPEN: "open", READ: "read", WRITE: "write", STAT: "stat", REMOVE: "remove", SYNC: "sync", SEEK: "seek",
    SET_SIZE: "set_size", READ_AT: "read_at",
}
TRAPS = {0: "a division", 3: "a breakpoint", 6: "no instruction of the profile", 13: "what a program may not do"}
PAGE_FAULT = 14
CAME = {0: "", 1: ", with a page to read", 2: ", with a page to write"}  # what receive tells of a page
PATH_SHOWN = 128  # bytes of a path
WORDS_SHOWN = 16  # words of a program
END_OF_INPUT = 4  # what cgetc answers there
FRAME_BYTES, STAT_BYTES = 68, 136  # what env_set_trapframe reads, and what stat tells
DECIMAL = 65536  # numbers below are decimal


# ---- numbers


def address(number):
    return f"{number:08x}"


def plain(number):
    return str(number) if number < DECIMAL else address(number)


def is_error(answer):
    return answer > 0xFFFFFFFF - GREATEST_ERROR


def error(answer):
    number = 0x100000000 - answer
    return f"-{number} {ERRORS[number]}" if number in ERRORS else f"-{number}"


def identity(number):
    if is_error(number):
        return error(number)
    return address(number) if number else "0"


def descriptor(number):
    """Or the error that one has where a descriptor should be."""
    return error(number) if is_error(number) else plain(number)


def names_of(bits, names, rest=""):
    """The names of the bits that are set, and what is left of them; or the rest, where there is none."""
    found = [name for bit, name in names if bits & bit]
    left = bits & ~sum(bit for bit, _ in names)
    return "|".join(found + ([hex(left)] if left else [])) or rest


def permissions(bits):
    return names_of(bits, BITS, "0")


def page_flags(bits):
    return names_of(bits, PAGE_FLAGS, "0")


def mode(bits):
    if bits & 3 == 3:
        return hex(bits)
    others = names_of(bits & ~3, MODES)
    return ACCESS[bits & 3] + ("|" + others if others else "")


def status(number):
    return STATUSES.get(number, plain(number))


def place(number):
    """Where a page is taken from, or comes to stand, in a message of the kernel's."""
    return f"va {address(number)}" if number < UTOP else "no page"


def place_of_library(number):
    return f"va {address(number)}" if number else "no page"


def sender(number):
    return f"from {address(number)}" if number else "from any"


def trap(number, code, va, ip):
    """A trap, as --trace has it, and what it says."""
    what = TRAPS.get(number, "a trap")
    if number == PAGE_FAULT:
        why = "which the page does not allow" if code & 1 else "where no page is"
        what = f"{'a write' if code & 2 else 'a read'}, {why}"
    return f"trap {number} err {code:x} va {va:08x} ip {ip:08x}: {what}"


# ---- bytes


def quoted(content):
    """Bytes as a string of C."""
    known = {0x0A: "\\n", 0x0D: "\\r", 0x09: "\\t", 0x22: '\\"', 0x5C: "\\\\"}
    known.update({byte: chr(byte) for byte in range(0x20, 0x7F) if byte not in known})
    return '"' + "".join(known.get(byte, f"\\x{byte:02x}") for byte in content) + '"'


def printable(content):
    """Bytes of a line without what a terminal would obey."""
    text = content.decode(errors="backslashreplace")
    return "".join(character if character.isprintable() else f"\\x{ord(character):02x}" for character in text)


class Sight:
    """The memory of an environment, seen from outside, so that nothing is marked. Of a buffer `cut` bytes are shown."""

    def __init__(self, frames, directory, cut):
        self.frames, self.entries, self.cut = frames, frames.entries[directory], cut

    def bytes(self, at, length):
        """The bytes from there on, as far as there are pages."""
        found = bytearray()
        while length > len(found) and at < UTOP and (entry := self.entries.get(at >> 12)):
            offset = at % PAGE_SIZE
            part = self.frames.bytes[entry[0]][offset:offset + length - len(found)]
            found += part
            at += len(part)
        return bytes(found)

    def text(self, at, length):
        """A buffer."""
        wanted = min(length, self.cut)
        if wanted and at >= UTOP:
            return "what a window shows"
        found = self.bytes(at, wanted)
        if len(found) < wanted:
            return (quoted(found) + ", and then no page") if found else "no page is there"
        return quoted(found) + (".." if wanted < length else "")

    def path(self, at):
        """A text up to its NUL."""
        found = self.bytes(at, PATH_SHOWN + 1)
        text, nul, _ = found.partition(b"\0")
        if nul:
            return quoted(text)
        if len(found) > PATH_SHOWN:
            return quoted(found[:PATH_SHOWN]) + ".."
        return (quoted(found) + ", and then no page") if found else f"va {address(at)}: no page is there"


# ---- calls


@dataclass(frozen=True)
class Form:
    """How a call is written: its arguments, each a register and how its number is written, with the path in EDX before
    them, where it has one; what stands behind them, by the registers and the memory; and an answer that is no error, by
    the number, what was given, the environment and its memory."""

    name: str
    arguments: tuple = ()
    path: bool = False
    behind: Callable = None
    answered: Callable = None

    def begun(self, registers, sight):
        """The call with its arguments."""
        written = [sight.path(registers[EDX])] if self.path else []
        written += [write(registers[register]) for register, write in self.arguments]
        behind = self.behind(registers, sight) if self.behind else ""
        return f"{self.name}({', '.join(written)}{behind})"

    def answer(self, number, given, environment, sight):
        """The answer. What was given stands in the registers as they were at the call."""
        if is_error(number):
            return error(number)
        return self.answered(number, given, environment, sight) if self.answered else plain(number)


def named(name, write):
    return lambda number: f"{name} {write(number)}"


def buffer(start, length):
    """The bytes of a buffer, of which these registers have the address and the length."""
    return lambda registers, sight: ": " + sight.text(registers[start], registers[length])


def words_given(registers, sight):
    """The words of spawn, whose addresses stand in a list."""
    words, at = [], registers[ECX]
    while len(words) < WORDS_SHOWN and len(content := sight.bytes(at, 4)) == 4:
        (address_of_word,) = struct.unpack("<I", content)
        if address_of_word == 0:
            return f", [{', '.join(words)}]"
        words.append(sight.path(address_of_word))
        at += 4
    return f", [{', '.join([*words, '..'])}]"


def frame(registers, sight):
    """The registers that env_set_trapframe reads."""
    content = sight.bytes(registers[ECX], FRAME_BYTES)
    if len(content) < FRAME_BYTES:
        return ": no page is there"
    words = struct.unpack("<17I", content)
    return f": eip {words[12]:08x} esp {words[15]:08x} eax {words[7]:08x}"


def permissions_of_message(registers, _):
    """Of ipc_try_send, which looks at them only where a page is to go."""
    return ", " + permissions(registers[EDI]) if registers[EBX] < UTOP else ""


def answers_id(number, *_):
    return identity(number)


def answers_byte(number, *_):
    """Of cgetc, to which the end of the input and a byte 4 are the same."""
    if number == END_OF_INPUT:
        return f"{number} END_OF_INPUT"
    return f"{number}: {quoted(bytes([number & 255]))}"


def answers_message(_, given, environment, __):
    """Of ipc_recv."""
    page = f", with the page {given[EDX]:08x} {permissions(environment.bits)}" if environment.bits else ""
    return f"0: {plain(environment.value)} from {environment.sender:08x}{page}"


def answers_received(number, _, environment, __):
    """Of receive."""
    registers = environment.processor.registers
    return f"{number}: {plain(registers[ECX])} from {registers[EDX]:08x}{CAME.get(registers[EBX], '')}"


def answers_read(number, given, _, sight):
    return f"{number}: {sight.text(given[ECX], number)}" if number else "0"


def answers_stat(number, given, _, sight):
    told = sight.bytes(given[ECX], STAT_BYTES)
    if len(told) < STAT_BYTES:
        return plain(number)
    size, is_directory = struct.unpack("<2I", told[128:])
    return f"{number}: {quoted(told[:128].rstrip(bytes(1)))}, {size} bytes" + (", a directory" if is_directory else "")


def answers_pipe(number, _, environment, __):
    registers = environment.processor.registers
    return f"{number}: reading {registers[EDX]}, writing {registers[ECX]}"


ID, VA, LEN, FD = named("id", identity), named("va", address), named("len", plain), named("fd", descriptor)
VALUE = named("value", plain)

CALLS = {
    0: Form("cputs", ((EDX, VA), (ECX, LEN)), behind=buffer(EDX, ECX)),
    1: Form("cgetc", answered=answers_byte),
    2: Form("getenvid", answered=answers_id),
    3: Form("env_destroy", ((EDX, ID),)),
    4: Form("page_alloc", ((EDX, ID), (ECX, VA), (EBX, permissions))),
    5: Form("page_map", ((EDX, ID), (ECX, VA), (EBX, named("to id", identity)), (EDI, VA), (ESI, permissions))),
    6: Form("page_unmap", ((EDX, ID), (ECX, VA))),
    7: Form("exofork", answered=answers_id),
    8: Form("env_set_status", ((EDX, ID), (ECX, status))),
    9: Form("env_set_trapframe", ((EDX, ID), (ECX, VA)), behind=frame),
    10: Form("env_set_pgfault_upcall", ((EDX, ID), (ECX, VA))),
    11: Form("yield"),
    12: Form("ipc_try_send", ((EDX, ID), (ECX, VALUE), (EBX, place)), behind=permissions_of_message),
    13: Form("ipc_recv", ((EDX, place), (ECX, sender)), answered=answers_message),
}
SERVICES = {
    0: Form("exit"),
    1: Form("cputs", ((EDX, VA), (ECX, LEN)), behind=buffer(EDX, ECX)),
    2: Form("getid", answered=answers_id),
    3: Form("yield"),
    4: Form("fork", answered=answers_id),
    5: Form("wait", ((EDX, ID),)),
    6: Form("page_new", ((EDX, VA), (ECX, page_flags))),
    7: Form("page_drop", ((EDX, VA),)),
    8: Form("send", ((EDX, ID), (ECX, VALUE), (EBX, place_of_library))),
    9: Form("receive", ((EDX, place_of_library), (ECX, sender)), answered=answers_received),
    10: Form("open", ((ECX, mode),), path=True),
    11: Form("close", ((EDX, FD),)),
    12: Form("read", ((EDX, FD), (ECX, VA), (EBX, LEN)), answered=answers_read),
    13: Form("write", ((EDX, FD), (ECX, VA), (EBX, LEN)), behind=buffer(ECX, EBX)),
    14: Form("seek", ((EDX, FD), (ECX, named("offset", plain)))),
    15: Form("stat", ((EDX, FD), (ECX, VA)), answered=answers_stat),
    16: Form("set_size", ((EDX, FD), (ECX, named("size", plain)))),
    17: Form("remove", path=True),
    18: Form("sync"),
    19: Form("dup", ((EDX, FD), (ECX, named("as", descriptor)))),
    20: Form("pipe", answered=answers_pipe),
    21: Form("spawn", path=True, behind=words_given, answered=answers_id),
}


def call_form(number):
    """That of a call of the kernel."""
    others = tuple((register, named(REGISTERS[register], address)) for register in (EDX, ECX, EBX, EDI, ESI))
    return CALLS.get(number) or Form(f"call {plain(number)}", others)


def service_form(number):
    """That of a service of the library."""
    others = tuple((register, named(REGISTERS[register], address)) for register in (EDX, ECX, EBX))
    return SERVICES.get(number) or Form(f"service {plain(number)}", others)
