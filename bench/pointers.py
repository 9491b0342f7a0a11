#!/usr/bin/env python3
"""Builds caches of 64 and 1,024 images with 4,096 pointers each with the proved program, and prints the time for one
pointer of each set and the ratio of the two; then the larger set against `cat` of the same files on the same disk in
the same run, and peak memory over the input's size. Times are the median of five.

usage: pointers.py [FOLDER]     FOLDER is where the files are written; a folder of its own beside this script if absent
"""
import os
import struct

import plain

POINTERS = 4096
TEXT = 0x1000
DATA = 8 * POINTERS


def section(name, segment, at, size):
    return struct.pack("<16s16s2Q8I", name, segment, at, size, at, 0, 0, 0, 0, 0, 0, 0)


def dylib(name):
    """A page of text, data of pointers into both, and a rebase stream of one run."""
    # REBASE_TYPE_POINTER; segment 1 at 0; 4,096 words; DONE
    stream = bytes([0x11, 0x21, 0x00, 0x60, 0x80, 0x20, 0x00])
    end = TEXT + DATA
    name = name.ljust(len(name) // 8 * 8 + 8, b"\0")
    commands = [
        plain.segment(b"__TEXT", 0, TEXT, TEXT, 5, section(b"__text", b"__TEXT", 0x800, 0x800)),
        plain.segment(b"__DATA", TEXT, DATA, DATA, 3, section(b"__data", b"__DATA", TEXT, DATA)),
        plain.segment(b"__LINKEDIT", end, 0x1000, 0x40, 1),
        struct.pack("<6I", 0xD, 24 + len(name), 24, 0, 0x10000, 0x10000) + name,
        struct.pack("<2I10I", 0x80000022, 48, end, len(stream), 0, 0, 0, 0, 0, 0, 0, 0),
        struct.pack("<4I", 0x1E, 16, end + 8, 2),
    ]
    size = sum(map(len, commands))
    header = struct.pack("<8I", 0xFEEDFACF, 0x01000007, 3, 6, len(commands), size, 0x85, 0) + b"".join(commands)
    words = b"".join(struct.pack("<Q", 0x800 + 8 * number % (TEXT + DATA - 0x800)) for number in range(POINTERS))
    return header.ljust(TEXT, b"\0") + words + (stream.ljust(8, b"\0") + b"\x7f\x00").ljust(0x40, b"\0")


def main():
    with plain.workplace() as place:
        cache = os.path.join(place, "cache")
        each = []
        for count in (64, 1024):
            paths = plain.write_set(place, count, lambda number: dylib(b"/pointers%04d.dylib" % number))
            seconds, memory = plain.build(paths, cache)
            each.append(seconds / count / POINTERS)
            print(f"{count} images of {POINTERS} pointers: {1e9 * each[-1]:.1f} ns a pointer")
        print(f"a pointer of the larger set takes {each[1] / each[0]:.2f} times one of the smaller")
        plain.against_cat(paths, cache, seconds, memory)


main()
