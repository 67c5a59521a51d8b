"""The Python reader of document 01 with faults put into it on purpose: what a comparison must notice."""
import os
import sys
import types

HERE = os.path.dirname(os.path.abspath(__file__))
SOURCES = [('document', os.path.join(HERE, '..', '..', 'tools', 'questions', 'document.py')), ('by_document', os.path.join(HERE, '..', 'by_document.py'))]

# What the fault is, in which file, a text that stands there once, and what takes its place.
FAULTS = [
    ('version 225 accepted', 'document', '<= self.version <= 224', '<= self.version <= 225'),
    ('version 220 refused', 'document', '220 <= self.version', '221 <= self.version'),
    ('any offsets byte but 0 accepted', 'document', 'check(reader.u8() == 1, 5)', 'check(reader.u8() != 0, 5)'),
    ('packed byte: only 1 counts', 'document', 'reader.u8() != 0', 'reader.u8() == 1'),
    ('65 grids accepted', 'document', 'count <= 64', 'count <= 65'),
    ('a position at the end of the file refused', 'document', 'found <= len(self.data)', 'found < len(self.data)'),
    ('a field that ends with the file refused', 'document', 'self.at + size <= len(self.data)', 'self.at + size < len(self.data)'),
    ('flags 8 accepted', 'document', 'self.flags <= 7', 'self.flags <= 8'),
    ('repeated names accepted', 'document', 'check(grid.name[2] not in [other.name[2] for other in self.grids], 10)', ''),
    ('magic and version: checks exchanged', 'document',
     "        check(reader.take(8) == bytes.fromhex('2042445600000000'), 3)\n        self.version = reader.u32()\n        check(220 <= self.version <= 224, 4)\n",
     "        magic = reader.take(8)\n        self.version = reader.u32()\n        check(220 <= self.version <= 224, 4)\n"
     "        check(magic == bytes.fromhex('2042445600000000'), 3)\n"),
    ('the end position checked after the flags', 'document',
     "self.end = reader.position(), reader.position(), reader.position()\n        inner = Reader(reader.data, self.grid)\n"
     "        self.flags = inner.u32() if version >= 222 else int(packed)\n        check(self.flags <= 7, 7)\n",
     "self.end = reader.position(), reader.position(), *reader.numbers('Q')\n        inner = Reader(reader.data, self.grid)\n"
     "        self.flags = inner.u32() if version >= 222 else int(packed)\n        check(self.flags <= 7, 7)\n"
     "        check(self.end <= len(reader.data), 9)\n"),
    ('names the same in their first 4,096 bytes taken as the same', 'document', 'grid.name[2] not in [other.name[2] for',
     'grid.name[2][:4096] not in [other.name[2][:4096] for'),
    ('names the same in their last 32 bytes taken as the same', 'document', 'grid.name[2] not in [other.name[2] for',
     'grid.name[2][-32:] not in [other.name[2][-32:] for'),
    ('a fixed kind skipped by its length', 'document', 'value = letter, reader.numbers(form)',
     "value = letter, reader.numbers(form)\n            reader.take(max(0, length - struct.calcsize('<' + form)))"),
    ('of one name the first entry counts', 'by_document', 'latest = dict(entries)', 'latest = dict(reversed(entries))'),
    ('the first half entry counts', 'document', "b'is_saved_as_half_float'][-1:]", "b'is_saved_as_half_float'][:1]"),
    ('a half entry of any kind counts', 'document', "if said and said[0][0] == 'b':", 'if said:'),
    ('a half entry of another kind is false', 'document', "    if said and said[0][0] == 'b':\n        return 2 if said[0][1][0] else 4\n",
     "    if said:\n        return 2 if said[0] == ('b', (True,)) else 4\n"),
    ("the type's ending goes before the half entry", 'document', "if said and said[0][0] == 'b':",
     "if said and said[0][0] == 'b' and grid.type[2] != b'Tree_float_5_4_3_HalfFloat':"),
    ("the type's ending decides nothing", 'document', "    return 2 if grid.type[2] == b'Tree_float_5_4_3_HalfFloat' else 4", '    return 4'),
    ('type and parent: checks exchanged', 'document',
     "        check(grid.type[2] in (b'Tree_float_5_4_3', b'Tree_float_5_4_3_HalfFloat'), 12)\n        check(not grid.parent[2], 13)\n",
     "        check(not grid.parent[2], 13)\n        check(grid.type[2] in (b'Tree_float_5_4_3', b'Tree_float_5_4_3_HalfFloat'), 12)\n"),
    ('a grid with a packing flag refused before its transform is read', 'document', "        check(not grid.parent[2], 13)\n",
     "        check(not grid.parent[2], 13)\n        check(not grid.flags & 5, 6)\n"),
    ('257 roots accepted', 'document', 'count <= 256', 'count <= 257'),
    ('tiles of 16 bytes', 'document', '17 * tiles', '16 * tiles'),
    ('origins at multiples of 2048 accepted', 'document', 'number % 4096', 'number % 2048'),
    ('a child and value bit at one place accepted', 'document', '    check(not child & value, 18)\n', ''),
    ('node byte 7 accepted', 'document', 'byte <= 6', 'byte <= 7'),
    ('inactive values widened as halves', 'document', 'self.read = [reader.u32() for',
     "self.read = [widened(reader.numbers('H')[0]) if self.width == 2 else reader.u32() for"),
    ('the background widened as a half', 'document', 'width(grid), self.background)',
     'width(grid), widened(self.background & 65535) if width(grid) == 2 else self.background)'),
    ('the second inactive value where the selection bit is 0', 'document', 'self.inactive[self.selection >> place & 1]',
     'self.inactive[self.selection >> place & 1 ^ len(self.inactive) - 1]'),
    ('a selection bit that counts in active places', 'document', 'if not self.stored >> place & 1:', 'if not (self.stored & ~self.selection) >> place & 1:'),
    ('zero with node byte 0', 'document', '0: [background]', '0: [0]'),
    ('minus the background with node byte 0', 'document', '0: [background]', '0: [minus]'),
    ('the background with node byte 1', 'document', '1: [minus]', '1: [background]'),
    ('zero with node byte 1', 'document', '1: [minus]', '1: [0]'),
    ('background and minus background exchanged with node byte 3', 'document', '3: [minus, background]', '3: [background, minus]'),
    ('zero where node byte 3 selects', 'document', '3: [minus, background]', '3: [minus, 0]'),
    ('zero where node byte 3 does not select', 'document', '3: [minus, background]', '3: [0, background]'),
    ('the value read where node byte 4 selects', 'document', '4: [*read, background]', '4: 2 * read'),
    ('minus the background where node byte 4 selects', 'document', '4: [*read, background]', '4: [*read, minus]'),
    ('zero where node byte 4 selects', 'document', '4: [*read, background]', '4: [*read, 0]'),
    ('minus zero is zero', 'document', 'background ^ 0x80000000', 'background and background ^ 0x80000000'),
    ('minus sets the top bit', 'document', 'background ^ 0x80000000', 'background | 0x80000000'),
    ('minus flips another bit', 'document', 'background ^ 0x80000000', 'background ^ 0x40000000'),
    ('a stored value numbered by the ones up to its place', 'document', '(1 << place) - 1)', '(2 << place) - 1)'),
    ('values of a 5-node under 222 numbered by place', 'document', 'number = ones(self.stored & (1 << place) - 1)',
     'number = place if 32000 < ones(self.stored) < 32768 else ones(self.stored & (1 << place) - 1)'),
    ('the number before a run not compared', 'document', '        check(-number == size, 25)\n', ''),
    ('a number that is not that of the bytes is 6', 'document', 'check(-number == size, 25)', 'check(-number == size, 6)'),
    ('a positive number is 25', 'document', 'check(number <= 0, 6)', 'check(number <= 0, 25)'),
    ('of a number only the low 32 bits compared', 'document', '-number == size', '-number % 2 ** 32 == size'),
    ('a number compared with that of the values', 'document', '-number == size', '-number == count'),
    ('a run whole before its number is compared', 'document', '        check(number <= 0, 6)\n',
     '        reader.take(size)\n        reader.at -= size\n        check(number <= 0, 6)\n'),
    ('no number before an empty run of floats', 'document', 'not (coding.width == 2 and count == 0)', 'count > 0'),
    ('a number before an empty run of halves', 'document', 'coding.flags & 5 and not (coding.width == 2 and count == 0)', 'coding.flags & 5'),
    ('a number with flag 0x1 alone', 'document', 'coding.flags & 5 and', 'coding.flags & 1 and'),
    ('a number with flag 0x4 alone', 'document', 'coding.flags & 5 and', 'coding.flags & 4 and'),
    ('the number before the selection mask', 'document', '                self.selection = reader.mask(places)\n',
     '                at, end = reader.at, reader.at + places // 8\n                if coding.flags & 5:\n'
     '                    reader.data = b"".join(bytes(reader.data[a:b]) for a, b in ((0, at), (at + 8, end + 8), (at, at + 8), (end + 8, None)))\n'
     '                self.selection = reader.mask(places)\n'),
    ('the quiet bit not set', 'document', 'quiet = 0x400000 if fraction else 0', 'quiet = 0'),
    ('a block\'s mask not compared', 'document', 'check(reader.mask(512) == mask, 20)', 'reader.mask(512)'),
    ('a block\'s origin not compared', 'document', "check(reader.numbers('iii') == origin, 20)", "reader.numbers('iii')"),
    ('a block\'s buffers not compared', 'document', 'check(reader.u8() == 1, 20)', 'reader.u8()'),
    ('tiles of a 4-node before its leaves', 'document',
     "                for origin, mask in leaves:\n                    found += active_places(0, origin, mask, next(blocks))\n"
     "                found += active_places(1, origin4, value4, stored4)\n",
     "                found += active_places(1, origin4, value4, stored4)\n"
     "                for origin, mask in leaves:\n                    found += active_places(0, origin, mask, next(blocks))\n"),
]


def models():
    """What each fault is, and the module by_document with it."""
    for what, name, old, new in FAULTS:
        kept = {module: sys.modules.get(module) for module, _ in SOURCES}
        for module, path in SOURCES:
            with open(path, encoding='utf-8') as file:
                source = file.read()
            if module == name:
                assert source.count(old) == 1, (what, source.count(old))
                source = source.replace(old, new)
            made = sys.modules[module] = types.ModuleType(module)
            made.__file__ = path
            exec(compile(source, path, 'exec'), made.__dict__)
        found = sys.modules['by_document']
        sys.modules.update(kept)
        yield what, found
