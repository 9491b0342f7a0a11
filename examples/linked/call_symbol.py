#!/usr/bin/env python3
"""Maps a cache at a slide, as a loader does, finds a symbol in the export trie of one of its images, and calls it: a
function without arguments that gives an int. Linux on x86-64.

usage: call_symbol.py CACHE PATH SYMBOL [SLIDE]
"""
import ctypes
import os
import struct
import sys

sys.path.insert(0, os.path.join(os.path.dirname(os.path.abspath(__file__)), ".."))
from call_cache import map_cache

REGION_START = 0x7FFF20000000
LC_DYLD_INFO_ONLY = 0x80000022


def header_of(cache, path):
    """The address of the image with this path, by the image table."""
    table, count = struct.unpack_from("<2I", cache, 0x18)
    for number in range(count):
        address, _, _, name = struct.unpack_from("<3QI", cache, table + 32 * number)
        if cache[name : cache.index(b"\0", name)] == path.encode():
            return address
    sys.exit(f"no image {path}")


def trie_of(cache, header):
    """The export trie that the dyld info command of an image names; file offsets count from the cache's start."""
    at = header - REGION_START
    commands, = struct.unpack_from("<I", cache, at + 16)
    place = at + 32
    for _ in range(commands):
        command, size = struct.unpack_from("<2I", cache, place)
        if command == LC_DYLD_INFO_ONLY:
            offset, length = struct.unpack_from("<2I", cache, place + 40)
            return cache[offset : offset + length]
        place += size
    return b""


def uleb(trie, at):
    value = shift = 0
    while True:
        byte = trie[at]
        value |= (byte & 0x7F) << shift
        at, shift = at + 1, shift + 7
        if byte < 0x80:
            return value, at


def offset_of(trie, name):
    """The offset from the header of a regular export."""
    node = 0
    while True:
        size, at = uleb(trie, node)
        if not name and size:
            _, at = uleb(trie, at)
            return uleb(trie, at)[0]
        at += size
        edges, at = trie[at], at + 1
        for _ in range(edges):
            end = trie.index(b"\0", at)
            edge = trie[at:end]
            node, at = uleb(trie, end + 1)
            if name.startswith(edge):
                name = name[len(edge) :]
                break
        else:
            sys.exit("no such symbol")


def main():
    path, image, symbol = sys.argv[1:4]
    slide = int(sys.argv[4], 0) if len(sys.argv) > 4 else 0
    cache = open(path, "rb").read()
    header = header_of(cache, image)
    offset = offset_of(trie_of(cache, header), symbol.encode())
    map_cache(cache, slide)
    function = header + slide + offset
    print(f"{symbol} at {function:#x} answers {ctypes.CFUNCTYPE(ctypes.c_int)(function)()}")


main()
