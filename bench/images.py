"""Images: those with one segment that compare.py makes, and what an image has for who boots it."""
import struct

BASE = 0x800000
CODE = BASE + 84  # behind the headers


def word(number):
    return struct.pack("<I", number & 0xFFFFFFFF)


def image(code, in_memory):
    """An image of this code, and of so many bytes in memory, which all may be written."""
    length = 84 + len(code)
    header = b"\x7fELF\1\1\1".ljust(16, b"\0")
    header += struct.pack("<HHIIIIIHHHHHH", 2, 3, 1, CODE, 52, 0, 0, 52, 32, 1, 0, 0, 0)
    header += struct.pack("<8I", 1, 0, BASE, BASE, length, in_memory, 7, 0x1000)
    return header + code


def segments_of(content):
    """The entry, and of each segment with memory its file's place and size, its address and size, and whether it is written."""
    entry, headers = struct.unpack_from("<II", content, 24)
    (number,) = struct.unpack_from("<H", content, 44)
    segments = []
    for k in range(number):
        kind, offset, va, _, in_file, in_memory, flags, _ = struct.unpack_from("<8I", content, headers + 32 * k)
        if kind == 1 and in_memory > 0:
            segments.append((offset, in_file, va, in_memory, flags & 2 != 0))
    return entry, segments


def pages_of(segments):
    """The pages in which segments lie, each with whether one of them is written."""
    pages = {}
    for _, _, va, size, writable in segments:
        for page in range(va >> 12, (va + size - 1 >> 12) + 1):
            pages[page] = pages.get(page, False) or writable
    return pages
