#!/usr/bin/env python3
"""Writes a dylib with a page of text and a page of data, in which a pointer at 0x10 leads to 0x20 of the data and one at
0x28 leads to the text; both are named by its rebase stream, after <mach-o/loader.h>.

usage: make_pointers.py OUT
"""
import struct
import sys

from make_plain import READ, READ_RUN, install_name, section, segment

LC_DYLD_INFO_ONLY, LC_SEGMENT_SPLIT_INFO = 0x80000022, 0x1E
READ_WRITE = 3
# REBASE_TYPE_POINTER; segment 1 at 0x10; a word, then 0x10 further on; another word; DONE
REBASES = bytes([0x11, 0x21, 0x10, 0x70, 0x10, 0x51, 0x00])


def dylib():
    commands = [
        segment(b"__TEXT", 0, 0x1000, 0x1000, READ_RUN, section(b"__text", b"__TEXT", 0x400, 0x800)),
        segment(b"__DATA", 0x1000, 0x1000, 0x1000, READ_WRITE, section(b"__data", b"__DATA", 0x1000, 0x1000)),
        segment(b"__LINKEDIT", 0x2000, 0x1000, 0x40, READ),
        install_name(b"/pointers.dylib"),
        struct.pack("<12I", LC_DYLD_INFO_ONLY, 48, 0x2000, len(REBASES), 0, 0, 0, 0, 0, 0, 0, 0),
        struct.pack("<4I", LC_SEGMENT_SPLIT_INFO, 16, 0x2008, 2),
    ]
    size = sum(map(len, commands))
    header = struct.pack("<8I", 0xFEEDFACF, 0x01000007, 3, 6, len(commands), size, 0x85, 0)
    file = bytearray((header + b"".join(commands)).ljust(0x2040, b"\0"))
    struct.pack_into("<Q", file, 0x1010, 0x1020)
    struct.pack_into("<Q", file, 0x1028, 0x400)
    file[0x2000 : 0x2000 + len(REBASES)] = REBASES
    file[0x2008:0x200A] = b"\x7f\x00"
    return bytes(file)


if __name__ == "__main__":
    with open(sys.argv[1], "wb") as out:
        out.write(dylib())
