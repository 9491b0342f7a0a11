"""A reader of dylibs and of caches that shares nothing with the program: after <mach-o/loader.h> and dyld's
dyld_cache_format.h, with opcode streams, split-segment information of version 2, export tries and chains of slide
information of version 2, as far as the dylibs of follow.py use them."""
import struct
from dataclasses import dataclass, field

MASK = (1 << 64) - 1
POINTER_64, DELTA_32, DELTA_64, IMAGE_OFF_32 = 2, 3, 4, 0xC
WIDTHS = {POINTER_64: 8, DELTA_32: 4, DELTA_64: 8, IMAGE_OFF_32: 4}
DEPENDENCIES = (0xC, 0x80000018, 0x8000001F, 0x80000023)


@dataclass
class Segment:
    name: bytes
    address: int
    size: int
    offset: int
    filesize: int
    protection: int
    sections: list


@dataclass
class Image:
    """What the load commands of a Mach-O image say."""

    path: bytes = b""
    segments: list = field(default_factory=list)
    needs: list = field(default_factory=list)
    reexports: list = field(default_factory=list)
    info: tuple = (0,) * 10
    split: tuple = (0, 0)

    @property
    def header(self):
        return next(segment.address for segment in self.segments if segment.name == b"__TEXT")

    def parts(self):
        """The segments besides __LINKEDIT."""
        return [segment for segment in self.segments if segment.name != b"__LINKEDIT"]

    def containing(self, address):
        """The number of the segment that holds an address."""
        return next(k for k, part in enumerate(self.parts()) if part.address <= address < part.address + part.size)

    def sections(self):
        """Segment number, address and size of each section, as section ordinals count them; 0 is the header's segment."""
        text = next(k for k, part in enumerate(self.parts()) if part.name == b"__TEXT")
        listed = [(text, self.parts()[text].address, self.parts()[text].size)]
        return listed + [(k, *section) for k, part in enumerate(self.parts()) for section in part.sections]


def cstring(data, at):
    return data[at : data.index(b"\0", at)]


def read_image(data):
    """The image whose header begins these bytes."""
    image = Image()
    count, = struct.unpack_from("<I", data, 16)
    at = 32
    for _ in range(count):
        command, size = struct.unpack_from("<2I", data, at)
        if command == 0x19:
            name, address, vmsize, offset, filesize, _, protection, sections, _ = struct.unpack_from("<16s4Q4I", data, at + 8)
            listed = [struct.unpack_from("<2Q", data, at + 72 + 80 * k + 32) for k in range(sections)]
            image.segments.append(Segment(name.rstrip(b"\0"), address, vmsize, offset, filesize, protection, listed))
        elif command == 0xD:
            image.path = cstring(data, at + 24)
        elif command in DEPENDENCIES:
            image.needs.append(cstring(data, at + 24))
            image.reexports.append(command == 0x8000001F)
        elif command in (0x22, 0x80000022):
            image.info = struct.unpack_from("<10I", data, at + 8)
        elif command == 0x1E:
            image.split = struct.unpack_from("<2I", data, at + 8)
        at += size
    return image


def uleb(data, at):
    value = shift = 0
    while True:
        byte = data[at]
        value |= (byte & 0x7F) << shift
        shift += 7
        at += 1
        if byte < 0x80:
            return value, at


def sleb(data, at):
    value, after = uleb(data, at)
    return value - (1 << 7 * (after - at)) if data[after - 1] & 0x40 else value, after


def rebases(image, stream):
    """The addresses that a rebase stream records."""
    base = offset = at = 0
    while at < len(stream):
        opcode, low = stream[at] & 0xF0, stream[at] & 0xF
        at += 1
        times = skip = 0
        if opcode == 0:
            return
        if opcode == 0x20:
            base = image.segments[low].address
            offset, at = uleb(stream, at)
        elif opcode == 0x30:
            add, at = uleb(stream, at)
            offset += add
        elif opcode == 0x40:
            offset += 8 * low
        elif opcode == 0x50:
            times = low
        elif opcode == 0x60:
            times, at = uleb(stream, at)
        elif opcode in (0x70, 0x80):
            times, at = (1, at) if opcode == 0x70 else uleb(stream, at)
            skip, at = uleb(stream, at)
        for _ in range(times):
            yield (base + offset) & MASK
            offset += 8 + skip


@dataclass
class Bind:
    address: int
    ordinal: int
    name: bytes
    weak: bool
    addend: int


def binds(image, stream, lazy):
    """What a bind stream records; a lazy one goes on behind DONE."""
    base = offset = ordinal = addend = at = 0
    name, weak = b"", False
    while at < len(stream):
        opcode, low = stream[at] & 0xF0, stream[at] & 0xF
        at += 1
        times = skip = 0
        if opcode == 0 and not lazy:
            return
        if opcode == 0x10:
            ordinal = low
        elif opcode == 0x20:
            ordinal, at = uleb(stream, at)
        elif opcode == 0x40:
            name, weak = cstring(stream, at), bool(low & 1)
            at += len(name) + 1
        elif opcode == 0x60:
            addend, at = sleb(stream, at)
        elif opcode == 0x70:
            base = image.segments[low].address
            offset, at = uleb(stream, at)
        elif opcode == 0x80:
            add, at = uleb(stream, at)
            offset += add
        elif opcode in (0x90, 0xB0):
            times, skip = 1, 8 * low if opcode == 0xB0 else 0
        elif opcode == 0xA0:
            times = 1
            skip, at = uleb(stream, at)
        elif opcode == 0xC0:
            times, at = uleb(stream, at)
            skip, at = uleb(stream, at)
        for _ in range(times):
            yield Bind((base + offset) & MASK, ordinal, name, weak, addend)
            offset += 8 + skip


def references(image, stream):
    """Address, kind and ordinal of the section to which it leads, for each reference of split-segment information."""
    sections = image.sections()
    at = 1

    def number():
        nonlocal at
        value, at = uleb(stream, at)
        return value

    for _ in range(number() if stream else 0):
        source, target = number(), number()
        for _ in range(number()):
            number()
            for _ in range(number()):
                kind, offset = number(), 0
                for _ in range(number()):
                    offset += number()
                    yield sections[source][1] + offset, kind, target


def exports(trie):
    """Name, flags and value of each export; a re-export's value is its ordinal and name."""

    def visit(at, name):
        size, at = uleb(trie, at)
        end = at + size
        if size:
            flags, at = uleb(trie, at)
            value, at = uleb(trie, at)
            yield name, flags, (value, cstring(trie, at)) if flags & 8 else value
        at = end + 1
        for _ in range(trie[end]):
            edge = cstring(trie, at)
            child, at = uleb(trie, at + len(edge) + 1)
            yield from visit(child, name + edge)

    return list(visit(0, b"")) if trie else []


class Memory:
    """Bytes at addresses, piece by piece."""

    def __init__(self):
        self.pieces = []

    def put(self, address, data):
        self.pieces.append((address, bytearray(data)))

    def piece(self, address):
        return next((start, data) for start, data in self.pieces if start <= address < start + len(data))

    def read(self, address, size):
        start, data = self.piece(address)
        return bytes(data[address - start : address - start + size])

    def number(self, address, size=8):
        return int.from_bytes(self.read(address, size), "little")

    def write(self, address, value):
        start, data = self.piece(address)
        struct.pack_into("<Q", data, address - start, value & MASK)


def slid(cache, data, slide):
    """The bytes of the data mapping, each word that the chains reach raised by the slide, and where these words are."""
    at, = struct.unpack_from("<Q", cache, 0x38)
    _, page_size, starts_at, starts, extras_at, _ = struct.unpack_from("<6I", cache, at)
    mask, = struct.unpack_from("<Q", cache, at + 24)
    shift = (mask & -mask).bit_length() - 1 - 2
    data, reached = bytearray(data), set()
    for page in range(starts):
        start, = struct.unpack_from("<H", cache, at + starts_at + 2 * page)
        if start == 0x4000:
            continue
        chains = [start]
        if start & 0x8000:
            chains, index, extra = [], start & 0x3FFF, 0
            while not extra & 0x8000:
                extra, = struct.unpack_from("<H", cache, at + extras_at + 2 * index)
                chains.append(extra & 0x3FFF)
                index += 1
        for offset in chains:
            place, delta = page * page_size + 4 * offset, 1
            while delta:
                raw, = struct.unpack_from("<Q", data, place)
                delta, value = (raw & mask) >> shift, raw & ~mask
                struct.pack_into("<Q", data, place, value + slide & MASK if value else 0)
                reached.add(place)
                place += delta
    return data, reached


@dataclass
class Cache:
    """A cache, mapped at a slide: its memory, its images and the addresses that its chains reach."""

    memory: Memory
    images: list
    chained: set
    greatest: int


def read_cache(cache, slide):
    table, count, images, image_count = struct.unpack_from("<4I", cache, 0x10)
    memory, chained = Memory(), set()
    for number in range(count):
        address, size, offset, _, _ = struct.unpack_from("<3Q2I", cache, table + 32 * number)
        data = cache[offset : offset + size]
        if number == 1:
            data, reached = slid(cache, data, slide)
            chained = {address + slide + place for place in reached}
        memory.put(address + slide, data)
    heads = [struct.unpack_from("<Q", cache, images + 32 * number)[0] for number in range(image_count)]
    start, = struct.unpack_from("<Q", cache, table)
    greatest, = struct.unpack_from("<Q", cache, 0xF0)
    return Cache(memory, [read_image(cache[head - start :]) for head in heads], chained, greatest)
