#!/usr/bin/env python3
"""Builds the cache of a plain dylib of 60 MiB with the proved program and compares it with `cat IN > OUT` on the
same disk in the same run: the median of five of each, their ratio, and peak memory over the input's size.

usage: plain.py [FOLDER]     FOLDER is where the files are written; a folder of its own beside this script if absent
"""
import os
import statistics
import struct
import subprocess
import sys
import tempfile
import time

TOP = os.path.dirname(os.path.dirname(os.path.abspath(__file__)))
PROGRAM = os.path.join(TOP, "crates", "dsc_tool", "out", "dsc_tool")
TEXT = 60 << 20
RUNS = 5


def segment(name, at, size, filesize, prot, sections=b""):
    fields = struct.pack("<16s4Q4I", name, at, size, at, filesize, prot, prot, len(sections) // 80, 0)
    return struct.pack("<2I", 0x19, 8 + len(fields) + len(sections)) + fields + sections


def dylib(name=b"/plain.dylib", text=TEXT):
    """A text segment of so many bytes, of which all but the first page is one section, and an empty linkedit."""
    section = struct.pack("<16s16s2Q8I", b"__text", b"__TEXT", 0x1000, text - 0x1000, 0x1000, 0, 0, 0, 0, 0, 0, 0)
    name = name.ljust(len(name) // 8 * 8 + 8, b"\0")
    commands = [
        segment(b"__TEXT", 0, text, text, 5, section),
        segment(b"__LINKEDIT", text, 0x1000, 0x40, 1),
        struct.pack("<6I", 0xD, 24 + len(name), 24, 0, 0x10000, 0x10000) + name,
    ]
    size = sum(map(len, commands))
    header = struct.pack("<8I", 0xFEEDFACF, 0x01000007, 3, 6, len(commands), size, 0x85, 0) + b"".join(commands)
    noise = os.urandom(min(text, 1 << 20))
    return (header.ljust(0x1000, b"\0") + noise * (text // len(noise)))[:text] + bytes(0x40)


def write_set(folder, count, make):
    """Writes so many files, each made from its number, and gives their paths."""
    paths = []
    for number in range(count):
        paths.append(os.path.join(folder, f"{count}-{number}"))
        with open(paths[-1], "wb") as file:
            file.write(make(number))
    return paths


def timed(command, out):
    """Seconds of one run, and the peak memory of its process in bytes."""
    if os.path.exists(out):
        os.remove(out)
    start = time.monotonic()
    child = subprocess.Popen(command, shell=isinstance(command, str), stdout=subprocess.DEVNULL)
    _, status, usage = os.wait4(child.pid, 0)
    seconds = time.monotonic() - start
    if status != 0:
        sys.exit(f"{command} ended with {status}")
    return seconds, usage.ru_maxrss * (1 if sys.platform == "darwin" else 1024)


def median(command, out):
    """Median seconds of five runs, and the greatest peak memory in bytes."""
    runs = [timed(command, out) for _ in range(RUNS)]
    return statistics.median(run[0] for run in runs), max(run[1] for run in runs)


def workplace():
    """A folder for the files of a run, which goes with them at the end."""
    if not os.path.exists(PROGRAM):
        sys.exit("no program yet: run ./dsc once")
    return tempfile.TemporaryDirectory(dir=sys.argv[1] if len(sys.argv) > 1 else os.path.dirname(os.path.abspath(__file__)))


def build(paths, cache):
    """Median seconds and peak memory in bytes of building the cache of these files."""
    return median([PROGRAM, "build", cache, *paths], cache)


def against_cat(paths, out, seconds, memory):
    """Says how a build of these files compares with `cat` of the same, run now."""
    whole = sum(map(os.path.getsize, paths))
    copied, _ = median(["sh", "-c", 'out=$1; shift; exec cat "$@" > "$out"', "sh", out, *paths], out)
    print(f"{whole >> 20} MiB: {seconds:.3f} s, cat {copied:.3f} s, ratio {seconds / copied:.2f}, memory {memory / whole:.2f} times the input")


def main():
    with workplace() as folder:
        source, cache, copy = (os.path.join(folder, name) for name in ("plain", "cache", "copy"))
        data = dylib()
        with open(source, "wb") as file:
            file.write(data)
        timed(["cat", source], copy)
        built, copied = [], []
        for _ in range(RUNS):
            copied.append(timed(f"exec cat '{source}' > '{copy}'", copy))
            built.append(timed([PROGRAM, "build", cache, source], cache))
        seconds = [statistics.median(run[0] for run in runs) for runs in (built, copied)]
        peak = max(run[1] for run in built)
        print(f"input {len(data)} bytes, cache {os.path.getsize(cache)} bytes, median of {RUNS}")
        print(f"dsc build {seconds[0]:.3f} s, cat {seconds[1]:.3f} s, ratio {seconds[0] / seconds[1]:.2f}")
        print(f"peak memory {peak} bytes, {peak / len(data):.2f} times the input")


if __name__ == "__main__":
    main()
