#!/usr/bin/env python3
"""Prints what the head of a cache says: its mappings, its images and the most that it may slide.

usage: show_head.py CACHE
"""
import struct
import sys

with open(sys.argv[1], "rb") as file:
    cache = file.read()
mappings_at, mappings, images_at, images = struct.unpack_from("<4I", cache, 0x10)
for k in range(mappings):
    address, size, at, most, first = struct.unpack_from("<3Q2I", cache, mappings_at + 32 * k)
    print(f"mapping {address:#x} size {size:#x} file {at:#x} prot {most}/{first}")
for k in range(images):
    address, _, _, path, _ = struct.unpack_from("<3Q2I", cache, images_at + 32 * k)
    print(f"{address:#x} {cache[path:cache.index(0, path)].decode()}")
print(f"max slide {struct.unpack_from('<Q', cache, 0xF0)[0]:#x}")
