#!/usr/bin/env python3
"""Maps a cache of the two dylibs of make_pair.py at a slide, as a loader does: each mapping at its address, and each word
that the chains of slide information version 2 reach raised by the slide. Then follows the difference in the first image's
text to its pointer, and calls the function to which that leads. Linux on x86-64.

usage: call_cache.py CACHE [SLIDE]
"""
import ctypes
import mmap
import struct
import sys

MAP_FIXED_NOREPLACE = 0x100000
libc = ctypes.CDLL(None, use_errno=True)
libc.mmap.restype = ctypes.c_void_p
libc.mmap.argtypes = [ctypes.c_void_p, ctypes.c_size_t, ctypes.c_int, ctypes.c_int, ctypes.c_int, ctypes.c_long]


def slide_pages(cache, data, slide):
    """The data mapping, slid by the slide information at slideInfoOffset."""
    at, _ = struct.unpack_from("<2Q", cache, 0x38)
    _, page_size, starts_at, starts, extras_at, _ = struct.unpack_from("<6I", cache, at)
    mask, = struct.unpack_from("<Q", cache, at + 24)
    shift = (mask & -mask).bit_length() - 1 - 2
    data = bytearray(data)
    for page in range(starts):
        start, = struct.unpack_from("<H", cache, at + starts_at + 2 * page)
        if start == 0x4000:
            continue
        offsets = [start & 0x3FFF]
        if start & 0x8000:
            offsets, index = [], start & 0x3FFF
            while True:
                extra, = struct.unpack_from("<H", cache, at + extras_at + 2 * index)
                offsets.append(extra & 0x3FFF)
                index += 1
                if extra & 0x8000:
                    break
        for offset in offsets:
            place, delta = page * page_size + 4 * offset, 1
            while delta:
                raw, = struct.unpack_from("<Q", data, place)
                delta, value = (raw & mask) >> shift, raw & ~mask
                struct.pack_into("<Q", data, place, value + slide if value else 0)
                place += delta
    return bytes(data)


def map_bytes(address, data, prot):
    """Puts bytes at a free address, with a protection."""
    where = libc.mmap(address, len(data), 7, mmap.MAP_PRIVATE | mmap.MAP_ANONYMOUS | MAP_FIXED_NOREPLACE, -1, 0)
    if where != address:
        sys.exit("the address is taken: try another slide")
    ctypes.memmove(where, data, len(data))
    libc.mprotect(ctypes.c_void_p(where), ctypes.c_size_t(len(data)), prot)


def map_cache(cache, slide):
    table, count = struct.unpack_from("<2I", cache, 0x10)
    for number in range(count):
        address, size, file, _, prot = struct.unpack_from("<3Q2I", cache, table + 32 * number)
        if size == 0:
            continue
        bytes_of = cache[file : file + size]
        if number == 1:
            bytes_of = slide_pages(cache, bytes_of, slide)
        map_bytes(address + slide, bytes_of, prot)


def main():
    cache = open(sys.argv[1], "rb").read()
    slide = int(sys.argv[2], 0) if len(sys.argv) > 2 else 0
    map_cache(cache, slide)
    images, = struct.unpack_from("<I", cache, 0x18)
    header, = struct.unpack_from("<Q", cache, images)
    place = header + slide + 0x800
    pointer = place + ctypes.c_int32.from_address(place).value
    function = ctypes.c_uint64.from_address(pointer).value
    print(f"{function:#x} answers {ctypes.CFUNCTYPE(ctypes.c_int)(function)()}")


if __name__ == "__main__":
    main()
