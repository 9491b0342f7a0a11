#!/usr/bin/env python3
"""Builds the cache of three dylibs with the proved program: differences and offsets of 4 and 8 bytes from text, read-only
and data segments to each of them and to the header, forward and backward, pointers to each, recorded or not, and binds to
all of them, lazy ones too. Then follows each word as loaded from its file and as mapped from the cache, at slides 0, 4096
and the greatest, by the reader of reading.py, and compares all other bytes of sections. Words of 4 bytes stand at the
edges of what they can hold; one past an edge has to be refused.

usage: follow.py                  makes the dylibs in a folder of its own
       follow.py CACHE DYLIB..    follows the words of a cache and its dylibs
"""
import os
import struct
import subprocess
import sys
from dataclasses import dataclass

import plain
import reading
from linked import library, uleb
from reading import DELTA_32, DELTA_64, IMAGE_OFF_32, MASK, POINTER_64, WIDTHS

# ---- following: where words lead, in dylibs and in a cache


@dataclass(frozen=True)
class Place:
    """A distance from the start of a segment of an image."""

    image: int
    segment: int
    distance: int


@dataclass
class Word:
    address: int
    kind: int
    target: object  # a place, or a number


class Files:
    """Dylibs of one set, as their commands and streams have them."""

    def __init__(self, contents):
        self.images = [reading.read_image(data) for data in contents]
        self.contents = contents
        self.numbers = {image.path: k for k, image in enumerate(self.images)}
        tries = [self.stream(number, 4) for number in range(len(contents))]
        self.exports = [{name: (flags, value) for name, flags, value in reading.exports(trie)} for trie in tries]

    def stream(self, number, kind):
        """A stream of the dyld info: rebase 0, bind 1, weak 2, lazy 3, export 4."""
        at, size = self.images[number].info[2 * kind : 2 * kind + 2]
        return self.contents[number][at : at + size]

    def order(self, number, seen=()):
        """An image and what it re-exports, each at its first visit."""
        if number in seen:
            return seen
        seen += (number,)
        image = self.images[number]
        for path, again in zip(image.needs, image.reexports):
            if again and path in self.numbers:
                seen = self.order(self.numbers[path], seen)
        return seen

    def resolve(self, number, bind):
        home = number if bind.ordinal == 0 else self.numbers[self.images[number].needs[bind.ordinal - 1]]
        for holder in self.order(home):
            if bind.name in self.exports[holder]:
                flags, value = self.exports[holder][bind.name]
                if flags & 3 == 2:
                    return value + bind.addend & MASK
                image = self.images[holder]
                segment = image.containing(image.header + value)
                return Place(holder, segment, image.header + value - image.parts()[segment].address + bind.addend & MASK)
        assert bind.weak
        return bind.addend & MASK

    def words(self, number):
        """All words of an image and where they lead, as its file has them."""
        image, memory = self.images[number], reading.Memory()
        for part in image.parts():
            memory.put(part.address, self.contents[number][part.offset : part.offset + part.filesize].ljust(part.size, b"\0"))
        split = self.contents[number][image.split[0] : sum(image.split)]
        recorded = list(reading.references(image, split))
        found = {}
        for kind in (1, 3):
            for bind in reading.binds(image, self.stream(number, kind), kind == 3):
                found[bind.address] = Word(bind.address, POINTER_64, self.resolve(number, bind))
        sections = {address: image.sections()[target][0] for address, kind, target in recorded if kind == POINTER_64}
        for address in reading.rebases(image, self.stream(number, 0)):
            value = memory.number(address)
            segment = sections[address] if address in sections else image.containing(value)
            found.setdefault(address, Word(address, POINTER_64, self.place(number, segment, value)))
        for address, kind, target in recorded:
            if kind != POINTER_64:
                led = led_to(kind, address, image.header, memory.number(address, WIDTHS[kind]))
                found[address] = Word(address, kind, self.place(number, image.sections()[target][0], led))
        return found.values(), memory

    def place(self, number, segment, address):
        return Place(number, segment, address - self.images[number].parts()[segment].address & MASK)


def led_to(kind, location, header, number):
    """The address to which a word leads by its kind."""
    if kind == IMAGE_OFF_32:
        return header + number & MASK
    if kind == DELTA_32:
        number -= (number & 1 << 31) << 1
    return number if kind == POINTER_64 else location + number & MASK


def follow(files, cache, slide):
    """How many words lead to the same place in the mapped cache, all of them and all other bytes compared."""
    mapped = reading.read_cache(cache, slide)
    assert [image.path for image in mapped.images] == [image.path for image in files.images]
    chained, count = set(), 0
    for number, (image, cached) in enumerate(zip(files.images, mapped.images)):
        words, memory = files.words(number)
        for word in words:
            segment = image.containing(word.address)
            shift = cached.parts()[segment].address + slide - image.parts()[segment].address
            width, location = WIDTHS[word.kind], word.address + shift
            led = led_to(word.kind, location, cached.header + slide, mapped.memory.number(location, width))
            if isinstance(word.target, Place):
                target = word.target
                start = mapped.images[target.image].parts()[target.segment].address + slide
                assert led == start + target.distance & MASK, (number, word, hex(led))
                if word.kind == POINTER_64:
                    chained.add(location)
            else:
                assert led == word.target, (number, word, hex(led))
            for held, at in ((memory, word.address), (mapped.memory, location)):
                start, data = held.piece(at)
                data[at - start : at - start + width] = bytes(width)
            count += 1
        for part, moved in zip(image.parts(), cached.parts()):
            for address, size in part.sections:
                there = address - part.address + moved.address + slide
                assert memory.read(address, size) == mapped.memory.read(there, size), (number, hex(address))
    assert chained == mapped.chained
    return count


def follow_all(contents, cache):
    files = Files(contents)
    greatest = reading.read_cache(cache, 0).greatest
    for slide in (0, 0x1000, greatest):
        print(f"slide {slide:#x}: {follow(files, cache, slide)} words lead where they led")


# ---- the dylibs

TEXT, CONST, DATA, MORE = 1, 2, 3, 4  # ordinals of sections
SOURCES = (TEXT, CONST, DATA)
PAGE = 0x1000


class Dylib:
    """Sections of a page in text, read-only and data segments, at these addresses, with words that are added in turn."""

    def __init__(self, path, needs, text, const, data):
        self.path, self.needs = path, needs
        self.starts = {0: text, TEXT: text + PAGE, CONST: const, DATA: data, MORE: data + PAGE}
        self.shared = {number: bytearray(PAGE) for number in self.starts}
        self.free = dict.fromkeys(self.starts, 0)
        self.references = {}
        self.rebases, self.binds, self.lazy = [], b"\x51", b""

    def put(self, section, value, width):
        """A word of these bytes in the next free place of a section: its offset there."""
        offset = self.free[section]
        self.shared[section][offset : offset + width] = (value & (1 << 8 * width) - 1).to_bytes(width, "little")
        self.free[section] += 8
        return offset

    def refer(self, source, target, kind, distance, value=None):
        """A reference to a distance from a section's start, whose number is as its kind has it or another."""
        place = self.starts[target] + distance
        start = self.starts[0] if kind == IMAGE_OFF_32 else self.starts[source] + self.free[source]
        offset = self.put(source, place - start if value is None else value, WIDTHS[kind])
        self.references.setdefault((source, target), {}).setdefault(distance, []).append((kind, offset))

    def point(self, target, distance, recorded):
        offset = self.put(MORE, self.starts[target] + distance, 8)
        self.rebases.append(offset)
        if recorded:
            self.references.setdefault((MORE, target), {}).setdefault(distance, []).append((POINTER_64, offset))

    def bind(self, ordinal, name, addend=0, weak=False, lazy=False):
        offset = self.put(MORE, 0, 8)
        spelled = b"\x72" + uleb(PAGE + offset) + bytes([0x10 + ordinal, 0x40 + weak]) + name + b"\0"
        spelled += b"\x60" + bytes([addend & 0x7F]) + b"\x90"
        if lazy:
            self.lazy += spelled + b"\0"
        else:
            self.binds += spelled

    def split(self):
        stream = b"\x7f" + uleb(len(self.references))
        for (source, target), places in self.references.items():
            stream += uleb(source) + uleb(target) + uleb(len(places))
            before = 0
            for distance in sorted(places):
                groups = places[distance]
                stream += uleb(distance - before) + uleb(len(groups))
                stream += b"".join(uleb(kind) + b"\1" + uleb(offset) for kind, offset in groups)
                before = distance
        return stream

    def trie(self):
        """`_t`, `_c` and `_d`, each in the middle of a section, and a constant `_k`."""
        places = {b"t": TEXT, b"c": CONST, b"d": DATA}
        nodes = [(name, b"\0" + uleb(self.starts[at] + PAGE // 2 - self.starts[0], 6)) for name, at in places.items()]
        nodes.append((b"k", b"\x02" + uleb(0x123456789)))
        root = b"\0\1_\0\5"
        at = len(root) + 2 + sum(len(name) + 3 for name, _ in nodes)
        edges = terminals = b""
        for name, value in nodes:
            edges += name + b"\0" + uleb(at + len(terminals), 2)
            terminals += uleb(len(value)) + value + b"\0"
        return root + b"\0" + bytes([len(nodes)]) + edges + terminals

    def streams(self):
        rebases = b"\x11" + b"".join(b"\x22" + uleb(PAGE + offset) + b"\x51" for offset in self.rebases) + b"\0"
        return rebases, self.binds + b"\0", self.lazy, self.trie(), self.split()

    def file(self):
        offsets, linkedit, end = [], b"", 5 * PAGE
        for stream in self.streams():
            offsets.append((end + len(linkedit) if stream else 0, len(stream)))
            linkedit += stream + bytes(-len(stream) % 8)
        rebase, bind, lazy, trie, split = offsets
        sections = [
            self.section(b"__text", b"__TEXT", TEXT, PAGE),
            self.section(b"__const", b"__CONST", CONST, 2 * PAGE),
            self.section(b"__data", b"__DATA", DATA, 3 * PAGE) + self.section(b"__more", b"__DATA", MORE, 4 * PAGE),
        ]
        commands = [
            self.segment(b"__TEXT", self.starts[0], 0, 2 * PAGE, 5, sections[0]),
            self.segment(b"__CONST", self.starts[CONST], 2 * PAGE, PAGE, 1, sections[1]),
            self.segment(b"__DATA", self.starts[DATA], 3 * PAGE, 2 * PAGE, 3, sections[2]),
            self.segment(b"__LINKEDIT", max(self.starts.values()) + PAGE, end, len(linkedit), 1),
            library(0xD, self.path),
            struct.pack("<12I", 0x80000022, 48, *rebase, *bind, 0, 0, *lazy, *trie),
            struct.pack("<4I", 0x1E, 16, *split),
            *(library(command, name) for command, name in self.needs),
        ]
        header = struct.pack("<8I", 0xFEEDFACF, 0x01000007, 3, 6, len(commands), sum(map(len, commands)), 0x85, 0)
        text = (header + b"".join(commands)).ljust(PAGE, b"\0")
        return text + b"".join(map(bytes, (self.shared[k] for k in (TEXT, CONST, DATA, MORE)))) + linkedit

    def section(self, name, segment, number, offset):
        return struct.pack("<16s16s2Q8I", name, segment, self.starts[number], PAGE, offset, *[0] * 7)

    def segment(self, name, address, offset, size, protection, sections=b""):
        fields = (name, address, size + -size % PAGE, offset, size, protection, protection, len(sections) // 80, 0)
        return struct.pack("<2I", 0x19, 72 + len(sections)) + struct.pack("<16s4Q4I", *fields) + sections


def with_words(dylib):
    """The dylib with a word of each kind from each section to each, to its start and to its end."""
    for source in SOURCES:
        for target in (0, TEXT, CONST, DATA, MORE):
            for kind in (DELTA_32, DELTA_64, IMAGE_OFF_32):
                for distance in (0, PAGE):
                    dylib.refer(source, target, kind, distance)
    for target in (TEXT, CONST, DATA, MORE):
        dylib.point(target, 0, False)
        dylib.point(target, PAGE - 1, True)
        dylib.point(target, PAGE, target != DATA)
    for lazy in (False, True):
        for number, name in enumerate((b"_t", b"_c", b"_d", b"_k")):
            for ordinal in range(len(dylib.needs) + 1):
                dylib.bind(ordinal, name, 8 * number - 8, lazy=lazy)
        dylib.bind(1, b"_absent", 5, weak=True, lazy=lazy)
    return dylib


def dylibs(edges=()):
    """One whose segments stand nearer than in the cache, one whose segments stand farther, and one that re-exports the
    second. Edges are references of 4 bytes more: dylib, source, target, kind and number."""
    made = [
        with_words(Dylib(b"/near", [(0xC, b"/again"), (0xC, b"/far")], 0x10000, 0x12000, 0x13000)),
        with_words(Dylib(b"/far", [(0x80000018, b"/near")], 0x40000000, 0x48000000, 0x50000000)),
        Dylib(b"/again", [(0x8000001F, b"/far")], 0, 0x2000, 0x3000),
    ]
    for number, source, target, kind, value in edges:
        made[number].refer(source, target, kind, 0, value)
    return [dylib.file() for dylib in made]


def edges_of(contents, cache):
    """References that stand in the cache at the least or the greatest number of their 4 bytes, from the shifts of segments,
    each with the step that leaves it behind."""
    images, mapped = Files(contents).images, reading.read_cache(cache, 0).images
    for number in (0, 1):
        image, cached = images[number], mapped[number]
        shifts = [there.address - here.address for here, there in zip(image.parts(), cached.parts())]
        ordinals = [segment for segment, _, _ in image.sections()]
        for source in SOURCES:
            for target in SOURCES:
                for kind, least, greatest in ((DELTA_32, -(1 << 31), (1 << 31) - 1), (IMAGE_OFF_32, 0, (1 << 32) - 1)):
                    start = 0 if kind == IMAGE_OFF_32 else source
                    change = shifts[ordinals[target]] - shifts[ordinals[start]]
                    for value, step in ((least, -1), (greatest, 1)):
                        if least <= value - change + step <= greatest:
                            yield (number, source, target, kind, value - change), step


def built(folder, contents, name):
    """The cache of these dylibs, or what the program says instead."""
    cache = os.path.join(folder, name)
    paths = plain.write_set(folder, len(contents), lambda number: contents[number])
    ran = subprocess.run([plain.PROGRAM, "build", cache, *paths], capture_output=True, text=True)
    if ran.returncode:
        return ran.stderr
    with open(cache, "rb") as file:
        return file.read()


def surely_built(folder, contents, name):
    cache = built(folder, contents, name)
    if isinstance(cache, str):
        sys.exit(f"refused: {cache}")
    return cache


def follow_own():
    with plain.workplace() as folder:
        first = dylibs()
        edges = list(edges_of(first, surely_built(folder, first, "first")))
        contents = dylibs([edge for edge, _ in edges])
        follow_all(contents, surely_built(folder, contents, "edges"))
        for edge, step in edges:
            answer = built(folder, dylibs([(*edge[:4], edge[4] + step)]), "past")
            rule = "152 OffsetOutOfRange" if edge[3] == IMAGE_OFF_32 else "151 DeltaOutOfRange"
            assert isinstance(answer, str) and f"{rule} image {edge[0]} " in answer, (edge, answer)
        print(f"{len(edges)} words of 4 bytes stand at an edge; one past it, each is refused")


def main():
    if len(sys.argv) < 3:
        return follow_own()
    cache, *contents = (open(path, "rb").read() for path in sys.argv[1:])
    follow_all(contents, cache)


if __name__ == "__main__":
    main()
