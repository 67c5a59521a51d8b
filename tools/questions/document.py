"""A reader by document 01, section by section, with what document 02 changes, and by nothing else. It says what crates/questions must
answer; compare/by_document.py prints what it reads.

It shares no code with what it is compared with, nor with what makes the clouds (compare/README.md)."""
import struct


class Refused(Exception):
    """The number of the check that fails."""


def check(condition, number):
    if not condition:
        raise Refused(number)


# Section 1

class Reader:
    """The file's bytes with a reading position. A field is whole (check 2) before it is looked at."""

    def __init__(self, data, at=0):
        self.data, self.at = data, at

    def take(self, size):
        check(self.at + size <= len(self.data), 2)
        self.at += size
        return self.data[self.at - size:self.at]

    def numbers(self, form):
        return struct.unpack('<' + form, self.take(struct.calcsize('<' + form)))

    def u8(self):
        return self.numbers('B')[0]

    def u32(self):
        return self.numbers('I')[0]

    def span(self, length):
        """Bytes: their start, their length, themselves."""
        start = self.at
        return start, length, self.take(length)

    def string(self):
        return self.span(self.u32())

    def mask(self, places):
        """Bit p of the number is place p."""
        return int.from_bytes(self.take(places // 8), 'little')

    def position(self):
        found, = self.numbers('Q')
        check(found <= len(self.data), 9)
        return found


# Section 2

FIXED = {b'bool': ('b', '?'), b'int32': ('i', 'i'), b'int64': ('l', 'q'), b'float': ('f', 'I'), b'vec3i': ('v', 'iii')}


def metadata(reader):
    """The entries: name, a letter for the kind, the value."""
    entries = []
    for _ in range(reader.u32()):
        name, kind, length = reader.string(), reader.string(), reader.u32()
        if kind[2] == b'string':
            value = 's', reader.span(length)
        elif kind[2] in FIXED:
            letter, form = FIXED[kind[2]]
            value = letter, reader.numbers(form)
        else:
            value = 'o', kind, reader.span(length)
        entries.append((name[2], value))
    return entries


def entry(entries, name):
    """A later entry of one name replaces the earlier."""
    found = [value for other, value in entries if other == name]
    check(found, 11)
    return found[-1]


class Grid:
    """A descriptor, with the flags and the metadata that it leads to."""

    def __init__(self, reader, version, packed):
        self.name, self.type, self.parent = reader.string(), reader.string(), reader.string()
        self.grid, self.block, self.end = reader.position(), reader.position(), reader.position()
        inner = Reader(reader.data, self.grid)
        self.flags = inner.u32() if version >= 222 else int(packed)
        check(self.flags <= 7, 7)
        self.metadata = inner.at
        self.entries = metadata(inner)
        self.tree = inner.at


class File:
    def __init__(self, data):
        check(len(data) <= 2147483647, 1)
        reader = Reader(data)
        check(reader.take(8) == bytes.fromhex('2042445600000000'), 3)
        self.version = reader.u32()
        check(220 <= self.version <= 224, 4)
        self.library = reader.u32(), reader.u32()
        check(reader.u8() == 1, 5)
        self.packed = self.version < 222 and reader.u8() != 0
        self.identity = reader.span(36)
        self.metadata = reader.at
        self.entries = metadata(reader)
        count = reader.u32()
        check(count <= 64, 8)
        self.grids = []
        for _ in range(count):
            grid = Grid(reader, self.version, self.packed)
            check(grid.name[2] not in [other.name[2] for other in self.grids], 10)
            self.grids.append(grid)
            reader.at = grid.end

    def grid(self, asked):
        """By its name or by its number from 0."""
        found = [grid for number, grid in enumerate(self.grids) if asked in (grid.name[2], number)]
        check(found, 11)
        return found[0]


# Section 3

MAPS = {b'UniformScaleMap': ('s', 15), b'ScaleMap': ('s', 15),
        b'UniformScaleTranslateMap': ('t', 18), b'ScaleTranslateMap': ('t', 18)}


def transform(reader):
    """Which map, and its doubles' patterns."""
    name = reader.string()[2]
    check(name in MAPS, 14)
    case, count = MAPS[name]
    return case, [reader.numbers('Q')[0] for _ in range(count)]


# Section 5

def widened(half):
    """The pattern of the float that a half is, by its sign, exponent and fraction."""
    sign, exponent, fraction = half >> 15, half >> 10 & 31, half & 1023
    if exponent == 31:
        quiet = 0x400000 if fraction else 0
        return sign << 31 | 0x7f800000 | quiet | fraction << 13
    value = fraction * 2.0 ** -24 if exponent == 0 else (1024 + fraction) * 2.0 ** (exponent - 25)
    return sign << 31 | struct.unpack('<I', struct.pack('<f', value))[0]


def ones(mask):
    return bin(mask).count('1')


class Coding:
    def __init__(self, version, flags, width, background):
        self.version, self.flags, self.width, self.background = version, flags, width, background


def run(reader, coding, count):
    """The bytes of so many stored values. With flag 0x1 or 0x4 an i64 stands before them, except before no halves: positive where they are packed,
    else minus as many bytes as they take."""
    size = count * coding.width
    if coding.flags & 5 and not (coding.width == 2 and count == 0):
        number, = reader.numbers('q')
        check(number <= 0, 6)
        check(-number == size, 25)
    return reader.take(size)


def inactive_values(byte, read, background):
    """What inactive places hold that are not stored (N1): one value, and a second one for the selected. Minus is the top bit flipped, of
    whatever pattern. Nothing of it is widened."""
    minus = background ^ 0x80000000
    return {0: [background], 1: [minus], 2: read, 3: [minus, background], 4: [*read, background], 5: read, 6: []}[byte]


class Stored:
    """The values of a node or, where `child` is None, of a leaf."""

    def __init__(self, reader, coding, places, child, value):
        self.width = coding.width
        self.inactive, self.selection, self.read = [], 0, []
        every = (1 << places) - 1
        if coding.version < 222:
            self.stored = every & ~(child or 0)
        else:
            byte = reader.u8()
            check(byte <= 6, 19)
            self.read = [reader.u32() for _ in range({2: 1, 4: 1, 5: 2}.get(byte, 0))]
            if byte in (3, 4, 5):
                self.selection = reader.mask(places)
            self.inactive = inactive_values(byte, self.read, coding.background)
            self.stored = value if coding.flags & 2 and byte != 6 else every
        self.run = run(reader, coding, ones(self.stored))

    def at(self, place):
        if not self.stored >> place & 1:
            return self.inactive[self.selection >> place & 1]
        number = ones(self.stored & (1 << place) - 1)
        pattern = int.from_bytes(self.run[number * self.width:(number + 1) * self.width], 'little')
        return widened(pattern) if self.width == 2 else pattern

    def brought(self, place):
        """Whether the file has the place's value, stored or read; else it is made of the background."""
        return self.stored >> place & 1 or (self.selection >> place & 1) < len(self.read)


# Sections 4 and 6

def rising(mask):
    places = []
    while mask:
        places.append((mask & -mask).bit_length() - 1)
        mask &= mask - 1
    return places


def moved(origin, place, side, step):
    parts = place // side ** 2, place // side % side, place % side
    return tuple(o + part * step for o, part in zip(origin, parts))


def node(reader, coding, places):
    child, value = reader.mask(places), reader.mask(places)
    check(not child & value, 18)
    return child, value, Stored(reader, coding, places, child, value)


def head(reader):
    """The background, and how many tiles and roots follow."""
    check(reader.u32() == 1, 15)
    background, tiles, count = reader.u32(), reader.u32(), reader.u32()
    check(count <= 256, 16)
    return background, tiles, count


def topology(reader, coding, tiles, count):
    """The roots. A root has its origin, value mask, values and 4-nodes, a 4-node its origin, value mask, values and leaves, a leaf its origin
    and mask."""
    reader.take(17 * tiles)
    roots, origins = [], set()
    for _ in range(count):
        origin = reader.numbers('iii')
        check(not any(number % 4096 for number in origin) and origin not in origins, 17)
        origins.add(origin)
        child5, value5, stored5 = node(reader, coding, 32768)
        nodes = []
        for place5 in rising(child5):
            origin4 = moved(origin, place5, 32, 128)
            child4, value4, stored4 = node(reader, coding, 4096)
            leaves = [(moved(origin4, place4, 16, 8), reader.mask(512)) for place4 in rising(child4)]
            nodes.append((origin4, value4, stored4, leaves))
        roots.append((origin, value5, stored5, nodes))
    return roots


def block(reader, coding, origin, mask):
    check(reader.mask(512) == mask, 20)
    if coding.version < 222:
        check(reader.numbers('iii') == origin, 20)
        check(reader.u8() == 1, 20)
    return Stored(reader, coding, 512, None, mask)


# Sections 7 and 8

# The side of a leaf, a 4-node and a 5-node, and the side of what one place of it covers.
LEVELS = [(8, 1), (16, 8), (32, 128)]


def active_places(level, origin, mask, stored):
    """A record for each one: x, y, z, level, value."""
    return [moved(origin, place, *LEVELS[level]) + (level, stored.at(place)) for place in rising(mask)]


def width(grid):
    """How many bytes a stored value takes: as the last half entry says if that is a bool, else by the ending of the type's name."""
    said = [value for name, value in grid.entries if name == b'is_saved_as_half_float'][-1:]
    if said and said[0][0] == 'b':
        return 2 if said[0][1][0] else 4
    return 2 if grid.type[2] == b'Tree_float_5_4_3_HalfFloat' else 4


class Opened:
    """A grid, by its name or its number; `file` is what the bytes were opened as, where that is at hand."""

    def __init__(self, data, asked, file=None):
        file = file or File(data)
        grid = file.grid(asked)
        check(grid.type[2] in (b'Tree_float_5_4_3', b'Tree_float_5_4_3_HalfFloat'), 12)
        check(not grid.parent[2], 13)
        reader = Reader(data, grid.tree)
        self.map = transform(reader)
        self.background, tiles, roots = head(reader)
        coding = Coding(file.version, grid.flags, width(grid), self.background)
        self.tree = topology(reader, coding, tiles, roots)
        self.roots = len(self.tree)
        nodes = [node for root in self.tree for node in root[3]]
        leaves = [leaf for node in nodes for leaf in node[3]]
        reader = Reader(data, grid.block)
        self.leaves = [block(reader, coding, origin, mask) for origin, mask in leaves]
        self.origins = [origin for origin, _ in leaves]
        self.records = sum(ones(mask) for _, mask, *_ in self.tree + nodes + leaves)

    def fill(self, leaf, slots):
        """The slots' contents after the fill."""
        check(leaf < len(self.leaves) and slots == 512, 21)
        return [self.leaves[leaf].at(place) for place in range(512)]

    def joined(self, first, slots):
        """The same for the leaves from a number on: as many as the slots are for, all of which must be there."""
        count = slots // 512
        check(slots % 512 == 0 and count <= max(len(self.leaves) - first, 0), 21)
        return [leaf.at(place) for leaf in self.leaves[first:first + count] for place in range(512)]

    def run(self, first, *lengths):
        """The origins of the leaves from a number on: as many as each of the three slices is long, all of which must be there."""
        count = lengths[0]
        check(lengths == (count,) * 3 and count <= max(len(self.origins) - first, 0), 21)
        return self.origins[first:first + count]

    def active(self):
        """The active list."""
        found, blocks = [], iter(self.leaves)
        for origin5, value5, stored5, nodes in self.tree:
            for origin4, value4, stored4, leaves in nodes:
                for origin, mask in leaves:
                    found += active_places(0, origin, mask, next(blocks))
                found += active_places(1, origin4, value4, stored4)
            found += active_places(2, origin5, value5, stored5)
        return found
