#!/usr/bin/env python3
"""Follows document 01 through a cloud's bytes, field by field, and prints what `describe` prints.

    layout.py FILE            everything but the leaves' values
    layout.py FILE listing    what the listing program must print
    layout.py FILE values     the leaves' values
    layout.py FILE read       the same with zero where the file has no value
    layout.py FILE PREFIX     compares all four with PREFIX.txt, .listing, .values, .read

It knows the document only, OpenVDB not at all, so that equal output means that the document's
layout is the layout of the files. It shares no code with tools/questions/document.py, which is
compared with what is confirmed here (compare/README.md). It is meant for whole files: the map is read with the descriptor,
so a damaged file may get another refusal than the document's.
"""
import struct
import sys


class Refused(Exception):
    pass


class Reader:
    """Section 1: the file's bytes with a reading position."""

    def __init__(self, data):
        self.data, self.at = data, 0

    def take(self, length):
        if self.at + length > len(self.data):
            raise Refused(2)
        self.at += length
        return self.data[self.at - length:self.at]

    def number(self, form):
        return struct.unpack('<' + form, self.take(struct.calcsize(form)))[0]

    def u8(self): return self.number('B')
    def u32(self): return self.number('I')
    def u64(self): return self.number('Q')
    def ivec3(self): return struct.unpack('<iii', self.take(12))

    def text(self, length=None):
        """Start, length and bytes."""
        length = self.u32() if length is None else length
        return self.at, length, self.take(length)

    def mask(self, places):
        """u64 words, bit 0 first."""
        words = struct.unpack('<%dQ' % (places // 64), self.take(places // 8))
        return [word >> bit & 1 for word in words for bit in range(64)]


def in_quotes(data):
    shown = ''.join('\\' + chr(c) if c in b'"\\' else chr(c) if 32 <= c <= 126 else '\\x%02x' % c
                    for c in data)
    return '"' + shown + '"'


def text_line(label, text):
    return '%s %d %d %s' % (label, text[0], text[1], in_quotes(text[2]))


# Section 2 --------------------------------------------------------------------------------------

FIXED = {b'bool': 'B', b'int32': 'i', b'int64': 'q', b'float': 'I', b'vec3i': 'iii'}


def metadata(reader):
    """The position, and the entries in file order: name, kind, start, length, value."""
    at, entries = reader.at, []
    for _ in range(reader.u32()):
        name, kind, length = reader.text()[2], reader.text()[2], reader.u32()
        if kind in FIXED:
            start, size = reader.at, struct.calcsize('<' + FIXED[kind])
            value = struct.unpack('<' + FIXED[kind], reader.take(size))
            if size != length:
                raise AssertionError('a fixed kind with another length: %r' % name)
        else:
            start, _, value = reader.text(length)
        entries.append((name, kind, start, length, value))
    return at, entries


def metadata_lines(found):
    at, entries = found
    lines = ['metadata %d entries %d' % (at, len(entries))]
    if [entry[0] for entry in entries] != sorted(set(entry[0] for entry in entries)):
        raise AssertionError('entries not in the order of their names')
    for name, kind, start, length, value in entries:
        if kind == b'bool':
            shown = 'true' if value[0] else 'false'
        elif kind == b'float':
            shown = '%08x' % value[0]
        elif kind in FIXED:
            shown = ' '.join(map(str, value))
        else:
            shown = '%d %d %s' % (start, length, in_quotes(value) if kind == b'string'
                                  else value.hex())
        lines.append('entry %s %s %s' % (in_quotes(name), in_quotes(kind), shown))
    return lines


class File:
    def __init__(self, data):
        reader = self.reader = Reader(data)
        self.lines = []
        if reader.take(8) != bytes.fromhex('2042445600000000'):
            raise Refused(3)
        self.version = reader.u32()
        if not 220 <= self.version <= 224:
            raise Refused(4)
        library = reader.u32(), reader.u32()
        offsets = reader.u8()
        self.packed = self.version in (220, 221) and reader.u8() != 0
        identity = reader.text(36)
        self.lines += ['version %d' % self.version, 'library %d %d' % library,
                       'offsets %d' % offsets, text_line('identity', identity)]
        if offsets != 1:
            raise Refused(5)
        self.lines += metadata_lines(metadata(reader))
        count = reader.u32()
        if count > 64:
            raise Refused(8)
        self.lines.append('grids %d' % count)
        self.grids = []
        for number in range(count):
            self.grids.append(Grid(self, number))
            if self.grids[-1].name in [grid.name for grid in self.grids[:-1]]:
                raise Refused(10)


class Grid:
    def __init__(self, file, number):
        reader = self.reader = file.reader
        self.version = file.version
        name, kind, parent = reader.text(), reader.text(), reader.text()
        self.name, self.type, self.parent = name[2], kind[2], parent[2]
        self.grid, self.block, self.end = positions = [reader.u64() for _ in range(3)]
        if max(positions) > len(reader.data):
            raise Refused(9)
        reader.at = self.grid
        self.flags = int(file.packed) if self.version < 222 else reader.u32()
        if self.flags > 7:
            raise Refused(7)
        found = metadata(reader)
        self.follows = reader.at
        by_type = 2 if self.type.endswith(b'_HalfFloat') else 4
        self.width = by_type
        for entry_name, entry_kind, _, _, value in found[1]:
            if entry_name == b'is_saved_as_half_float':
                self.width = (2 if value[0] else 4) if entry_kind == b'bool' else by_type
        self.lines = ['grid %d' % number, text_line('name', name), text_line('type', kind),
                      text_line('parent', parent), 'positions %d %d %d' % tuple(positions),
                      'flags %d' % self.flags] + metadata_lines(found)
        self.lines.append('follows %d' % self.follows)
        self.map_lines()
        reader.at = self.end

    # Section 3 ----------------------------------------------------------------------------------

    def map_lines(self):
        """The map, AffineMap among them (document 02, request N9)."""
        reader = self.reader
        self.map = reader.text()[2]
        self.lines.append('map ' + in_quotes(self.map))
        vectors = {b'UniformScaleMap': 5, b'ScaleMap': 5, b'UniformScaleTranslateMap': 6,
                   b'ScaleTranslateMap': 6}.get(self.map)
        for _ in range(vectors or 0):
            self.lines.append('vector %016x %016x %016x' % tuple(reader.u64() for _ in range(3)))
        if self.map == b'AffineMap':
            for _ in range(4):
                self.lines.append('row %016x %016x %016x %016x'
                                  % tuple(reader.u64() for _ in range(4)))
        self.accepted_map = vectors is not None
        self.topology_at = reader.at

    # Sections 4 to 8 ----------------------------------------------------------------------------

    def open(self):
        if self.type not in (b'Tree_float_5_4_3', b'Tree_float_5_4_3_HalfFloat'):
            raise Refused(12)
        if self.parent:
            raise Refused(13)
        if not self.accepted_map:
            raise Refused(14)
        self.topology()
        if self.reader.at != self.block:
            raise AssertionError('the topology does not end at the block position')
        self.blocks()
        if self.reader.at != self.end:
            raise AssertionError('the blocks do not end at the end position')

    def node(self, places):
        child, value = self.reader.mask(places), self.reader.mask(places)
        if any(c and v for c, v in zip(child, value)):
            raise Refused(18)
        return child, value, self.stored(child, value)

    def topology(self):
        reader = self.reader
        reader.at = self.topology_at
        if reader.u32() != 1:
            raise Refused(15)
        self.background = reader.u32()
        tiles, count = reader.u32(), reader.u32()
        if count > 256:
            raise Refused(16)
        active_tiles = sum(1 for _ in range(tiles) if reader.take(17)[16])
        self.nodes = ['background %08x' % self.background,
                      'roottiles %d active %d' % (tiles, active_tiles), 'roots %d' % count]
        self.leaves, self.roots, origins = [], [], []
        for _ in range(count):
            origin = reader.ivec3()
            if any(c % 4096 for c in origin) or origin in origins:
                raise Refused(17)
            origins.append(origin)
            child, value, stored = self.node(32768)
            self.nodes.append(('root', origin, child, value, stored))
            fours = []
            for p in ones(child):
                fours.append(self.node_4(place(origin, p, 32, 128)))
            self.roots.append((origin, value, stored, fours))

    def node_4(self, origin):
        child, value, stored = self.node(4096)
        self.nodes.append(('node4', origin, child, value, stored))
        leaves = []
        for p in ones(child):
            leaf = [place(origin, p, 16, 8), self.reader.mask(512), None]
            self.nodes.append(('leaf', len(self.leaves)))
            self.leaves.append(leaf)
            leaves.append(leaf)
        return origin, value, stored, leaves

    def blocks(self):
        reader = self.reader
        reader.at = self.block
        for leaf in self.leaves:
            if reader.mask(512) != leaf[1]:
                raise Refused(20)
            if self.version < 222 and (reader.ivec3() != leaf[0] or reader.u8() != 1):
                raise Refused(20)
            leaf[2] = self.stored(None, leaf[1])

    def stored(self, child, active):
        """Section 5, request N1: the node byte, the values, these with zero where none is read."""
        reader, places = self.reader, len(active)
        if self.version < 222:
            values = iter(self.run(places - sum(child or [])))
            values = [0 if child and child[p] else next(values) for p in range(places)]
            return 6, values, values
        byte = reader.u8()
        if byte > 6:
            raise Refused(19)
        first = reader.u32() if byte in (2, 4, 5) else 0
        second = reader.u32() if byte == 5 else 0
        selected = reader.mask(places) if byte in (3, 4, 5) else [0] * places
        if not self.flags & 2 or byte == 6:
            values = self.run(places)
            return byte, values, values
        values = iter(self.run(sum(active)))
        values = [next(values) if active[p] else None for p in range(places)]
        plus, minus = self.background, self.background ^ 0x80000000
        whole = {0: (plus, plus), 1: (minus, minus), 2: (first, first), 3: (minus, plus),
                 4: (first, plus), 5: (first, second)}[byte]
        return (byte, *([pair[selected[p]] if values[p] is None else values[p]
                         for p in range(places)] for pair in (whole, (first, second))))

    def run(self, count):
        """The stored values. With a packing flag their length stands before them (request N3)."""
        if self.flags & 5 and (count > 0 or self.width == 4):
            length = self.reader.number('q')
            if length > 0:
                raise Refused(6)
            if length != -self.width * count:
                raise Refused(25)
        data = self.reader.take(self.width * count)
        if self.width == 4:
            return list(struct.unpack('<%dI' % count, data))
        return [widen(h) for h in struct.unpack('<%dH' % count, data)]

    # Section 7 ----------------------------------------------------------------------------------

    def records(self):
        for origin, value, stored, fours in self.roots:
            for origin_4, value_4, stored_4, leaves in fours:
                for origin_3, mask, values in leaves:
                    for p in ones(mask):
                        yield place(origin_3, p, 8, 1) + (0, values[1][p])
                for p in ones(value_4):
                    yield place(origin_4, p, 16, 8) + (1, stored_4[1][p])
            for p in ones(value):
                yield place(origin, p, 32, 128) + (2, stored[1][p])

    def record_lines(self):
        records = list(self.records())
        return (['records %d' % len(records)] +
                ['%d %d %d %d %08x' % record for record in records])

    def node_lines(self):
        for line in self.nodes:
            if isinstance(line, str):
                yield line
            elif line[0] == 'leaf':
                origin, mask, values = self.leaves[line[1]]
                yield ('leaf %d %d %d %d byte %d active %d'
                       % ((line[1],) + origin + (values[0], sum(mask))))
            else:
                label, origin, child, value, stored = line
                yield ('%s %d %d %d byte %d children %d active %d'
                       % ((label,) + origin + (stored[0], sum(child), sum(value))))
        yield 'leaves %d' % len(self.leaves)

    def value_lines(self, which):
        for number, (origin, _, values) in enumerate(self.leaves):
            yield 'leaf %d %d %d %d' % ((number,) + origin)
            for p in range(0, 512, 8):
                yield ' '.join('%08x' % value for value in values[which][p:p + 8])


def ones(mask):
    return [p for p, bit in enumerate(mask) if bit]


def place(origin, p, d, step):
    x, y, z = p // (d * d), p // d % d, p % d
    return tuple(o + c * step for o, c in zip(origin, (x, y, z)))


def widen(h):
    """Section 5: exactly; a NaN keeps its fraction bits, quiet bit set."""
    sign, fraction = h >> 15 << 31, (h & 0x3ff)
    if h & 0x7c00 == 0x7c00:
        return sign | 0x7f800000 | fraction << 13 | (0x400000 if fraction else 0)
    value = struct.unpack('<e', struct.pack('<H', h & 0x7fff))[0]
    return sign | struct.unpack('<I', struct.pack('<f', value))[0]


# The four outputs -------------------------------------------------------------------------------

def outcome(grid, lines):
    """The lines of an accepted grid, or its refusal."""
    try:
        grid.open()
    except Refused as refusal:
        return ['refused %d' % refusal.args]
    return list(lines())


def everything(path, data):
    lines = ['file %s %d' % (path.split('/')[-1], len(data))]
    file = File.__new__(File)
    try:
        file.__init__(data)
    except Refused as refusal:
        return lines + file.lines + ['refused %d' % refusal.args]
    lines += file.lines
    for grid in file.grids:
        lines += grid.lines + outcome(grid, lambda: list(grid.node_lines()) + grid.record_lines())
    return lines


def listing(_, data):
    if len(data) > 65536:
        return ['too long']
    try:
        file = File(data)
        if not file.grids:
            raise Refused(11)
    except Refused as refusal:
        return ['refused %d' % refusal.args]
    return outcome(file.grids[0], file.grids[0].record_lines)


def values(which):
    def lines(_, data):
        result = []
        try:
            for number, grid in enumerate(File(data).grids):
                result.append('grid %d' % number)
                result += outcome(grid, lambda: grid.value_lines(which))
        except Refused as refusal:
            result.append('refused %d' % refusal.args)
        return result
    return lines


OUTPUTS = {'txt': everything, 'listing': listing, 'values': values(1), 'read': values(2)}


def main(words):
    path = words[0]
    with open(path, 'rb') as stream:
        data = stream.read()
    if len(words) == 2 and words[1] not in OUTPUTS:
        for ending, output in OUTPUTS.items():
            expected = open('%s.%s' % (words[1], ending)).read()
            if ''.join(line + '\n' for line in output(path, data)) != expected:
                sys.exit('%s and %s.%s differ' % (path, words[1], ending))
        return
    for line in OUTPUTS[words[-1] if len(words) > 1 else 'txt'](path, data):
        print(line)


if __name__ == '__main__':
    main(sys.argv[1:])
