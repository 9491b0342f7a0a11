#!/usr/bin/env python3
"""Loads dylibs that are files of their own, as a loader does that binds at once: each at a slide of its own, with the
slide added at its rebases and each bind, lazy ones too, set to what its symbol is. Then calls a function of the first
one: one without arguments that gives an int. Linux on x86-64.

usage: call_files.py SLIDE SYMBOL DYLIB..
"""
import ctypes
import os
import sys

here = os.path.dirname(os.path.abspath(__file__))
sys.path[:0] = [os.path.join(here, ".."), os.path.join(here, "..", "..", "bench")]
from call_cache import map_bytes
from reading import Memory, binds, exports, read_image, rebases

APART = 0x100000


class Dylib:
    """A file's image, its segments at a slide with its rebases done, and what its streams say."""

    def __init__(self, file, slide):
        data = open(file, "rb").read()
        self.image, self.slide, self.memory = read_image(data), slide, Memory()
        for part in self.image.parts():
            whole = data[part.offset : part.offset + part.filesize].ljust(part.size, b"\0")
            self.memory.put(part.address + slide, whole)
        places = zip(self.image.info[::2], self.image.info[1::2])
        rebase, bind, _, lazy, trie = (data[at : at + size] for at, size in places)
        self.binds = [*binds(self.image, bind, False), *binds(self.image, lazy, True)]
        self.exports = {name: (flags, value) for name, flags, value in exports(trie)}
        for address in rebases(self.image, rebase):
            self.memory.write(address + slide, self.memory.number(address + slide) + slide)


def resolve(dylibs, dylib, ordinal, name):
    """The address of a symbol of the dylib with this ordinal, or None where that has none."""
    if ordinal:
        dylib = dylibs[dylib.image.needs[ordinal - 1]]
    if name not in dylib.exports:
        ordinals = [k + 1 for k, again in enumerate(dylib.image.reexports) if again]
        return next(filter(None, (resolve(dylibs, dylib, k, name) for k in ordinals)), None)
    flags, value = dylib.exports[name]
    if flags & 8:
        return resolve(dylibs, dylib, value[0], value[1] or name)
    return value if flags & 3 == 2 else dylib.image.header + dylib.slide + value


def main():
    slide, symbol = int(sys.argv[1], 0), sys.argv[2].encode()
    loaded = [Dylib(file, slide + APART * number) for number, file in enumerate(sys.argv[3:])]
    dylibs = {dylib.image.path: dylib for dylib in loaded}
    for dylib in loaded:
        for bind in dylib.binds:
            address = resolve(dylibs, dylib, bind.ordinal, bind.name)
            if address is None and not bind.weak:
                sys.exit(f"no symbol {bind.name.decode()}")
            dylib.memory.write(bind.address + dylib.slide, (address or 0) + bind.addend)
        for (start, data), part in zip(dylib.memory.pieces, dylib.image.parts()):
            map_bytes(start, bytes(data), part.protection)
    function = resolve(dylibs, loaded[0], 0, symbol)
    print(f"{symbol.decode()} at {function:#x} answers {ctypes.CFUNCTYPE(ctypes.c_int)(function)()}")


main()
