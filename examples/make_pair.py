#!/usr/bin/env python3
"""Writes two dylibs, after <mach-o/loader.h>: the second exports `_number`, a function that answers 42, and the first has
a lazy pointer that is bound to it, and a difference of 4 bytes in its text that leads to that pointer.

usage: make_pair.py FIRST SECOND
"""
import struct
import sys

from make_plain import READ, READ_RUN, install_name, section, segment

LC_LOAD_DYLIB, LC_DYLD_INFO_ONLY, LC_SEGMENT_SPLIT_INFO = 0xC, 0x80000022, 0x1E
READ_WRITE = 3
# segment 1 at 0x10; ordinal 1; the name; bind; done
LAZY_BINDS = b"\x71\x10\x11\x40_number\0\x90\0"
# a root with one edge to a node at 11: an export without flags at 0x500
TRIE = b"\0\x01_number\0\x0b\x03\0\x80\x0a\0"
# version 2; from section 1 to 0x10 of section 2: one difference in 4 bytes, at 0x400 of section 1
SPLIT = b"\x7f\x01\x01\x02\x01\x10\x01\x03\x01\x80\x08"
# mov eax, 42; ret
FUNCTION = b"\xb8\x2a\0\0\0\xc3"


def dylib(path, needs, lazy, exports, split):
    """Text at 0, data at 0x1000, linkedit at 0x2000 with the split-segment information, lazy binds and exports."""
    commands = [
        segment(b"__TEXT", 0, 0x1000, 0x1000, READ_RUN, section(b"__text", b"__TEXT", 0x400, 0x800)),
        segment(b"__DATA", 0x1000, 0x1000, 0x1000, READ_WRITE, section(b"__data", b"__DATA", 0x1000, 0x1000)),
        segment(b"__LINKEDIT", 0x2000, 0x1000, 0x80, READ),
        install_name(path),
        struct.pack(
            "<12I", LC_DYLD_INFO_ONLY, 48, 0, 0, 0, 0, 0, 0,
            0x2020 if lazy else 0, len(lazy), 0x2040 if exports else 0, len(exports),
        ),
        struct.pack("<4I", LC_SEGMENT_SPLIT_INFO, 16, 0x2000, len(split)),
    ]
    for name in needs:
        text = name + bytes(-(len(name) + 1 + 24) % 8 + 1)
        commands.append(struct.pack("<6I", LC_LOAD_DYLIB, 24 + len(text), 24, 0, 0x10000, 0x10000) + text)
    size = sum(map(len, commands))
    header = struct.pack("<8I", 0xFEEDFACF, 0x01000007, 3, 6, len(commands), size, 0x85, 0)
    file = bytearray((header + b"".join(commands)).ljust(0x2080, b"\0"))
    file[0x2000 : 0x2000 + len(split)] = split
    file[0x2020 : 0x2020 + len(lazy)] = lazy
    file[0x2040 : 0x2040 + len(exports)] = exports
    return file


def first():
    file = dylib(b"/first.dylib", [b"/second.dylib"], LAZY_BINDS, b"", SPLIT)
    struct.pack_into("<i", file, 0x800, 0x1010 - 0x800)
    return bytes(file)


def second():
    file = dylib(b"/second.dylib", [], b"", TRIE, b"\x7f\0")
    file[0x500 : 0x500 + len(FUNCTION)] = FUNCTION
    return bytes(file)


if __name__ == "__main__":
    for name, file in zip(sys.argv[1:3], (first(), second())):
        with open(name, "wb") as out:
            out.write(file)
