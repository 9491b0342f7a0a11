#!/usr/bin/env python3
"""Builds caches of dylibs that are linked with each other with the proved program: 64 and 1,024 images of 1,000 exports
each; 64 and 1,024 images of 1,000 binds each, every other one through two re-exports; and 256 MiB of images with one
reference for 64 bytes and one pointer for 128. Prints the time for one export, bind or reference, what one of the larger
set takes beside one of the smaller, and the larger set against `cat` of the same files on the same disk in the same run,
with peak memory over the input's size. Times are the median of five.

usage: linked.py [FOLDER]     FOLDER is where the files are written; a folder of its own beside this script if absent
"""
import os
import struct

import plain

PAGE = 0x1000
NAMES = [b"_e%03d" % number for number in range(1000)]


def uleb(value, width=0):
    """The number in groups of seven bits, padded to so many bytes."""
    groups = bytearray()
    while value >= 0x80 or len(groups) + 1 < width:
        groups.append(value & 0x7F | 0x80)
        value >>= 7
    return bytes(groups) + bytes([value])


def section(name, segment, at, size):
    return struct.pack("<16s16s2Q8I", name, segment, at, size, at, 0, 0, 0, 0, 0, 0, 0)


def library(command, path):
    """LC_ID_DYLIB, LC_LOAD_DYLIB or LC_REEXPORT_DYLIB."""
    path = path.ljust(len(path) // 8 * 8 + 8, b"\0")
    return struct.pack("<6I", command, 24 + len(path), 24, 0, 0x10000, 0x10000) + path


def dylib(path, text, data, needs=(), rebases=b"", binds=b"", exports=b"", split=b"\x7f\0"):
    """A dylib of these bytes of text, behind 0x800 for its header, and of data, with its streams in its linkedit."""
    end = len(text) + len(data)
    streams = {}
    linkedit = b""
    for name, stream in (("rebase", rebases), ("bind", binds), ("export", exports), ("split", split)):
        streams[name] = (end + len(linkedit) if stream else 0, len(stream))
        linkedit += stream + bytes(-len(stream) % 8)
    info = (*streams["rebase"], *streams["bind"], 0, 0, 0, 0, *streams["export"])
    size = len(linkedit)
    whole = size + -size % PAGE
    commands = [
        plain.segment(b"__TEXT", 0, len(text), len(text), 5, section(b"__text", b"__TEXT", 0x800, len(text) - 0x800)),
        plain.segment(b"__DATA", len(text), len(data), len(data), 3, section(b"__data", b"__DATA", len(text), len(data))),
        plain.segment(b"__LINKEDIT", end, whole, size, 1),
        library(0xD, path),
        struct.pack("<12I", 0x80000022, 48, *info),
        struct.pack("<4I", 0x1E, 16, *streams["split"]),
        *(library(command, name) for command, name in needs),
    ]
    header = struct.pack("<8I", 0xFEEDFACF, 0x01000007, 3, 6, len(commands), sum(map(len, commands)), 0x85, 0)
    return (header + b"".join(commands)).ljust(0x800, b"\0") + text[0x800:] + data + linkedit


def trie_of(names):
    """An export trie of `_eNNN`: a tree of digits, with child offsets of three bytes. Each name is in the text."""
    nodes = {}

    def put(prefix, at):
        """Gives the size of the node of a prefix and of all below it, with their places."""
        keys = sorted({name[len(prefix) :][: 2 if not prefix else 1] for name in names if name.startswith(prefix) and name != prefix})
        size = (1 + 4 if prefix in names else 1) + 1 + sum(len(key) + 1 + 3 for key in keys)
        nodes[prefix] = (at, keys)
        for key in keys:
            size += put(prefix + key, at + size)
        return size

    put(b"", 0)
    spelled = b""
    for prefix, (at, keys) in nodes.items():
        spelled += b"\x04\0" + uleb(0x800 + len(spelled) % 0x800, 3) if prefix in names else b"\0"
        spelled += bytes([len(keys)]) + b"".join(key + b"\0" + uleb(nodes[prefix + key][0], 3) for key in keys)
    return spelled


TRIE = trie_of(frozenset(NAMES))
# type pointer, segment 1 at 0; for each word an ordinal, a name and a bind
BINDS = b"\x51\x71\0" + b"".join(bytes([0x11 + number % 2]) + b"\x40" + name + b"\0\x90" for number, name in enumerate(NAMES)) + b"\0"


def exporting(number):
    return dylib(b"/exports%04d.dylib" % number, bytes(PAGE), bytes(PAGE), exports=TRIE)


def binding(number):
    """The first image exports; the second re-exports the first, and the third the second; all others bind."""
    path = b"/binds%04d.dylib"
    data = bytes(2 * PAGE)
    if number == 0:
        return dylib(path % 0, bytes(PAGE), data, exports=TRIE)
    if number < 3:
        return dylib(path % number, bytes(PAGE), data, [(0x8000001F, path % (number - 1))])
    return dylib(path % number, bytes(PAGE), data, [(0xC, path % 0), (0xC, path % 2)], binds=BINDS)


HALF = 512 << 10
PLACES = range(0x800, HALF, 32)


def referring(number):
    """Differences from the text to the data, in order, and pointers of the data to the text."""
    text, data = bytearray(HALF), bytearray(HALF)
    for count, at in enumerate(PLACES):
        struct.pack_into("<i", text, at, HALF + 16 * count - at)
    for at in range(0, HALF, 64):
        struct.pack_into("<Q", data, at, 0x800 + at % (HALF - 0x800))
    steps = b"\x10\x01\x03\x01"
    split = b"\x7f\x01\x01\x02" + uleb(len(PLACES)) + b"".join(
        (steps if count else b"\0" + steps[1:]) + uleb(at - 0x800) for count, at in enumerate(PLACES)
    )
    rebases = b"\x11\x21\0\x80" + uleb(HALF // 64) + uleb(56) + b"\0"
    return dylib(b"/references%04d.dylib" % number, bytes(text), bytes(data), rebases=rebases, split=split)


def measure(place, make, what, each, counts):
    cache = os.path.join(place, "cache")
    single = []
    for count in counts:
        paths = plain.write_set(place, count, make)
        seconds, memory = plain.build(paths, cache)
        single.append(seconds / count / each)
        print(f"{count} images of {each} {what}s: {1e9 * single[-1]:.1f} ns a {what}")
    if len(single) > 1:
        print(f"one of the larger set takes {single[-1] / single[0]:.2f} times one of the smaller")
    plain.against_cat(paths, cache, seconds, memory)


def main():
    with plain.workplace() as place:
        measure(place, exporting, "export", len(NAMES), (64, 1024))
        measure(place, binding, "bind", len(NAMES), (64, 1024))
        measure(place, referring, "reference", len(PLACES), (64, 256))


if __name__ == "__main__":
    main()
