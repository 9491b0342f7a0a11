#!/usr/bin/env python3
"""Writes the dylib that the program's stored run builds: a text segment, an empty linkedit segment and an
install name, after <mach-o/loader.h>.

usage: make_plain.py OUT
"""
import struct
import sys

LC_SEGMENT_64, LC_ID_DYLIB = 0x19, 0xD
READ, READ_RUN = 1, 5


def segment(name, at, size, filesize, prot, sections=b""):
    """A segment that lies at the same place in memory as in the file."""
    fields = struct.pack("<16s4Q4I", name, at, size, at, filesize, prot, prot, len(sections) // 80, 0)
    return struct.pack("<2I", LC_SEGMENT_64, 8 + len(fields) + len(sections)) + fields + sections


def section(name, segment_name, at, size):
    return struct.pack("<16s16s2Q8I", name, segment_name, at, size, at, 0, 0, 0, 0, 0, 0, 0)


def install_name(path):
    name = path + bytes(-(len(path) + 1 + 24) % 8 + 1)
    return struct.pack("<6I", LC_ID_DYLIB, 24 + len(name), 24, 0, 0x10000, 0x10000) + name


def dylib():
    commands = [
        segment(b"__TEXT", 0, 0x1000, 0x1000, READ_RUN, section(b"__text", b"__TEXT", 0x400, 0x800)),
        segment(b"__LINKEDIT", 0x1000, 0x1000, 0x40, READ),
        install_name(b"/a.dylib"),
    ]
    size = sum(map(len, commands))
    # x86_64, MH_DYLIB, MH_NOUNDEFS | MH_DYLDLINK | MH_TWOLEVEL
    header = struct.pack("<8I", 0xFEEDFACF, 0x01000007, 3, 6, len(commands), size, 0x85, 0)
    return (header + b"".join(commands)).ljust(0x1040, b"\0")


if __name__ == "__main__":
    with open(sys.argv[1], "wb") as out:
        out.write(dylib())
