#!/usr/bin/env python3
"""Builds the cache of 1,024 dylibs of 256 KiB with the proved program, each with a pointer for 64 bytes of data and 1,000
exports; checks it against them, and extracts all of its images. Prints the time of the check beside that of the build, and
that of the extraction beside `cat` of the cache on the same disk in the same run, with peak memory over the cache's size.
Times are the median of five.

usage: taken.py [FOLDER]     FOLDER is where the files are written; a folder of its own beside this script if absent
"""
import os
import shutil
import struct

import linked
import plain

HALF = 128 << 10
REBASES = b"\x11\x21\0\x80" + linked.uleb(HALF // 64) + linked.uleb(56) + b"\0"


def dylib(number):
    data = bytearray(HALF)
    for at in range(0, HALF, 64):
        struct.pack_into("<Q", data, at, 0x800 + at % (HALF - 0x800))
    return linked.dylib(b"/taken%04d.dylib" % number, os.urandom(HALF), bytes(data), rebases=REBASES, exports=linked.TRIE)


def extract(cache, folder):
    """Median seconds and peak memory in bytes of making files of all images of a cache, which are removed again."""
    runs = []
    for _ in range(plain.RUNS):
        runs.append(plain.timed([plain.PROGRAM, "extract", cache, folder], os.path.join(folder, "none")))
        taken = len(os.listdir(folder))
        shutil.rmtree(folder)
    return sorted(run[0] for run in runs)[plain.RUNS // 2], max(run[1] for run in runs), taken


def main():
    with plain.workplace() as place:
        cache, none = os.path.join(place, "cache"), os.path.join(place, "none")
        paths = plain.write_set(place, 1024, dylib)
        built, _ = plain.build(paths, cache)
        checked, memory = plain.median([plain.PROGRAM, "check", cache, *paths], none)
        whole = os.path.getsize(cache)
        print(f"build {built:.3f} s, check {checked:.3f} s, ratio {checked / built:.2f}, memory {memory / whole:.2f} times the cache")
        seconds, memory, taken = extract(cache, os.path.join(place, "out"))
        print(f"{taken} files of {whole >> 20} MiB")
        plain.against_cat([cache], os.path.join(place, "copy"), seconds, memory)


main()
