#!/usr/bin/env python3
"""Writes LC_SEGMENT_SPLIT_INFO of version 2 into a dylib, which lld leaves out: the places in its code from which a number
of 4 bytes counts to another segment. They are those of the object's relocations, and of the stubs that the linker adds.

It serves dylibs made of one object, whose sections the linker leaves as they are, and of one segment of code. Names are
those of <mach-o/loader.h> and <mach-o/x86_64/reloc.h>.

usage: split_info.py DYLIB OBJECT
"""
import struct
import sys

LC_SEGMENT_64, LC_SEGMENT_SPLIT_INFO = 0x19, 0x1E
# X86_64_RELOC_SIGNED, BRANCH, GOT_LOAD, GOT, SIGNED_1, SIGNED_2 and SIGNED_4, all of which count from the instruction
COUNTED = {1, 2, 3, 4, 6, 7, 8}
DELTA_32 = 3


def sections_of(file):
    """The sections of a file in order, each with its segment, name, address, size and place, and its relocations."""
    commands, = struct.unpack_from("<I", file, 16)
    at, sections = 32, []
    for _ in range(commands):
        command, size = struct.unpack_from("<2I", file, at)
        if command == LC_SEGMENT_64:
            for number in range(struct.unpack_from("<I", file, at + 64)[0]):
                fields = struct.unpack_from("<16s16s2Q4I", file, at + 72 + 80 * number)
                name, segment = (text.rstrip(b"\0").decode() for text in fields[:2])
                sections.append((segment, name, *fields[2:5], *fields[6:8]))
        at += size
    return sections


def places_of(file):
    """Where the code of an object counts from, by section: offsets of numbers of 4 bytes."""
    places = {}
    for segment, name, _, _, _, at, count in sections_of(file):
        for number in range(count):
            offset, symbol = struct.unpack_from("<2I", file, at + 8 * number)
            if symbol >> 28 in COUNTED:
                places.setdefault((segment, name), set()).add(offset)
    return places


def stub_places(file, sections):
    """The same of the linker's stubs, by their instructions: jmp and lea of an address that counts from the next one."""
    places = {}
    for segment, name, _, size, at, _, _ in sections:
        if (segment, name) in (("__TEXT", "__stubs"), ("__TEXT", "__stub_helper")):
            code = file[at : at + size]
            found = {n + 2 for n in range(len(code) - 5) if code[n : n + 2] == b"\xff\x25"}
            found |= {n + 3 for n in range(len(code) - 6) if code[n : n + 3] == b"\x4c\x8d\x1d"}
            places[segment, name] = found
    return places


def uleb(value):
    groups = bytearray()
    while value >= 0x80:
        groups.append(value & 0x7F | 0x80)
        value >>= 7
    return bytes(groups) + bytes([value])


def references_of(file, sections, places):
    """The references that lead out of their segment: (from section, to section) with pairs of offsets."""
    references = {}
    for index, (segment, name, address, _, at, _, _) in enumerate(sections, 1):
        for offset in places.get((segment, name), ()):
            target = address + offset + 4 + struct.unpack_from("<i", file, at + offset)[0]
            for number, (other, _, start, size, _, _, _) in enumerate(sections, 1):
                if start <= target < start + size and other != segment:
                    references.setdefault((index, number), []).append((target - start, offset))
    return references


def spell(references):
    """Whole = count FromTo*; FromTo = from to count ToOffset*; ToOffset = step count Group*; Group = kind count step*."""
    stream = b"\x7f" + uleb(len(references))
    for (source, target), pairs in sorted(references.items()):
        by_target = {}
        for to_offset, from_offset in sorted(pairs):
            by_target.setdefault(to_offset, []).append(from_offset)
        stream += uleb(source) + uleb(target) + uleb(len(by_target))
        reached = 0
        for to_offset, offsets in by_target.items():
            steps = [b - a for a, b in zip([0, *offsets], offsets)]
            stream += uleb(to_offset - reached) + uleb(1) + uleb(DELTA_32) + uleb(len(steps)) + b"".join(map(uleb, steps))
            reached = to_offset
    return stream


def put_stream(file, stream):
    """Puts the stream at the end of the linkedit, and its command behind the others, where the linker left room."""
    file += bytes(-len(file) % 8)
    place = len(file)
    file += stream
    commands, size = struct.unpack_from("<2I", file, 16)
    at = 32
    for _ in range(commands):
        command, length = struct.unpack_from("<2I", file, at)
        if command == LC_SEGMENT_64 and file[at + 8 : at + 24].startswith(b"__LINKEDIT\0"):
            start, = struct.unpack_from("<Q", file, at + 40)
            whole = len(file) - start
            struct.pack_into("<Q", file, at + 32, whole + -whole % 0x1000)
            struct.pack_into("<Q", file, at + 48, whole)
        at += length
    if any(file[at : at + 16]):
        sys.exit("no room for another command")
    struct.pack_into("<4I", file, at, LC_SEGMENT_SPLIT_INFO, 16, place, len(stream))
    struct.pack_into("<2I", file, 16, commands + 1, size + 16)


def main():
    path, object_path = sys.argv[1:3]
    file = bytearray(open(path, "rb").read())
    sections = sections_of(file)
    places = places_of(open(object_path, "rb").read()) | stub_places(file, sections)
    put_stream(file, spell(references_of(file, sections, places)))
    with open(path, "wb") as out:
        out.write(file)


main()
