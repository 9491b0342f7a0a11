#!/usr/bin/env python3
"""Sets stroff and strsize of a dylib's LC_SYMTAB to 0.

usage: empty_strings.py DYLIB
"""
import struct
import sys

LC_SYMTAB = 2

with open(sys.argv[1], "r+b") as dylib:
    header = dylib.read(32)
    at = 32
    for _ in range(struct.unpack_from("<I", header, 16)[0]):
        dylib.seek(at)
        number, size = struct.unpack("<2I", dylib.read(8))
        if number == LC_SYMTAB:
            dylib.seek(at + 16)
            dylib.write(bytes(8))
        at += size
