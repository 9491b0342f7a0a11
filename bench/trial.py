#!/usr/bin/env python3
"""Times `dsc trial` of 4,096 dylibs beside `dsc build` of the same files, which this script generates by a writer of its
own, after the published definition of PCG XSH RR 64/32 and the documented order of draws. The line of the trial has to
tell the words, the span and the sum of the bytes of the cache that is built of the files. Since a trial generates,
builds, and reads the cache back, and a build reads its inputs and writes the cache, the ratio tells what generation
takes. Times are the median of five.

usage: trial.py [FOLDER]     FOLDER is where the files are written; a folder of its own beside this script if absent
"""
import os
import statistics
import struct
import subprocess
import sys

import plain
from linked import library, section, uleb

PAGES, POINTERS, LINKS = 4, 100, 20
SIZE = 0x1000 * PAGES
SEED, COUNT = 5, 4096
MASK = (1 << 64) - 1


class Draws:
    """`Lcg64Xsh32::new(seed, 54)` of the crate rand_pcg."""

    def __init__(self, seed):
        self.increment = 54 << 1 | 1
        self.state = seed + self.increment & MASK
        self.word()

    def word(self):
        state = self.state
        self.state = state * 6364136223846793005 + self.increment & MASK
        shifted = (state >> 18 ^ state) >> 27 & 0xFFFFFFFF
        turn = state >> 59
        return (shifted >> turn | shifted << (32 - turn & 31)) & 0xFFFFFFFF

    def draw(self, below):
        return self.word() % below


def trie_of(values):
    """`_s0` to `_s7`: a node for `_s`, and one behind it for each digit."""
    leaves = [bytes([1 + len(uleb(value)), 0]) + uleb(value) + b"\0" for value in values]
    root = b"\0\1_s\0" + uleb(9, 4)
    at = len(root) + 2 + len(leaves) * 6
    edges = b""
    for number, leaf in enumerate(leaves):
        edges += b"%d\0" % number + uleb(at, 4)
        at += len(leaf)
    return root + b"\0" + bytes([len(leaves)]) + edges + b"".join(leaves)


def split_of(deltas):
    """References from section 1 to section 2, by where they lead and where they stand."""
    places = {}
    for place, offset in sorted((place, offset) for offset, place in deltas):
        places.setdefault(place, []).append(offset)
    stream, before = b"\x7f\1\1\2" + uleb(len(places)), 0
    for place, offsets in places.items():
        stream += uleb(place - before) + b"\1\3" + uleb(len(offsets))
        stream += b"".join(uleb(offset - last) for last, offset in zip([0, *offsets], offsets))
        before = place
    return stream


def generated(draws, number):
    """The next dylib, whose number is this."""
    text = bytearray(0x800) + b"".join(struct.pack("<I", draws.word()) for _ in range((SIZE - 0x800) // 4))
    data = bytearray(SIZE)
    uuid = struct.pack("<4I", *(draws.word() for _ in range(4)))
    deltas = [(16 * k, draws.draw(SIZE)) for k in range(POINTERS)]
    for offset, place in deltas:
        struct.pack_into("<i", text, 0x800 + offset, SIZE + place - (0x800 + offset))
    for k in range(POINTERS):
        struct.pack_into("<Q", data, 32 * k, 0x800 + draws.draw(2 * SIZE - 0x800))
    rebases = b"\x11" + b"".join(b"\x21" + uleb(32 * k) + b"\x51" for k in range(POINTERS)) + b"\0"
    trie = trie_of([0x800 + draws.draw(SIZE - 0x800) for _ in range(8)])
    ordinal = 0x11 if number else 0x10
    binds = b"".join(
        bytes([ordinal]) + b"\x40_s%d\0\x71" % draws.draw(8) + uleb(32 * (POINTERS + k)) + b"\x90" for k in range(LINKS)
    )
    return dylib(number, uuid, bytes(text), bytes(data), (rebases, binds + b"\0", trie, split_of(deltas)))


def dylib(number, uuid, text, data, streams):
    spots, linkedit = [], b""
    for stream in streams:
        linkedit += bytes(-len(linkedit) % 8)
        spots.append((2 * SIZE + len(linkedit), len(stream)))
        linkedit += stream
    rebase, bind, trie, split = spots
    name = b"/gen/lib%04d.dylib"
    commands = [
        plain.segment(b"__TEXT", 0, SIZE, SIZE, 5, section(b"__text", b"__TEXT", 0x800, SIZE - 0x800)),
        plain.segment(b"__DATA", SIZE, SIZE, SIZE, 3, section(b"__data", b"__DATA", SIZE, SIZE)),
        plain.segment(b"__LINKEDIT", 2 * SIZE, len(linkedit) + -len(linkedit) % 0x1000, len(linkedit), 1),
        library(0xD, name % number),
        struct.pack("<12I", 0x80000022, 48, *rebase, *bind, 0, 0, 0, 0, *trie),
        struct.pack("<2I", 0x1B, 24) + uuid,
        *([library(0xC, name % (number - 1))] if number else []),
        struct.pack("<4I", 0x1E, 16, *split),
    ]
    size = sum(map(len, commands))
    header = struct.pack("<8I", 0xFEEDFACF, 0x01000007, 0, 6, len(commands), size, 0x80, 0) + b"".join(commands)
    return header.ljust(0x800, b"\0") + text[0x800:] + data + linkedit


def main():
    with plain.workplace() as place:
        cache, draws = os.path.join(place, "cache"), Draws(SEED)
        paths = plain.write_set(place, COUNT, lambda number: generated(draws, number))
        building, _ = plain.build(paths, cache)
        with open(cache, "rb") as file:
            data = file.read()
        words = COUNT * (POINTERS + LINKS)
        wanted = f"trial: {COUNT} images, {words} words, span 0x{len(data):x}, sum {sum(data)}\n"
        told = subprocess.run([plain.PROGRAM, "trial", str(SEED), str(COUNT)], capture_output=True, text=True).stdout
        if told != wanted:
            sys.exit(f"the trial tells {told}and its files {wanted}")
        trials = [plain.timed([plain.PROGRAM, "trial", str(SEED), str(COUNT)], cache) for _ in range(plain.RUNS)]
        seconds = statistics.median(run[0] for run in trials)
        print(told, end="")
        print(f"trial {seconds:.3f} s, build of its files {building:.3f} s, ratio {seconds / building:.2f}")


if __name__ == "__main__":
    main()
