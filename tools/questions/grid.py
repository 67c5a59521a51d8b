"""Grids: case A of document 01, section 9, and others made from it; each node byte; versions 220 and 221.

Each file stands with the refusal that section 8 gives to opening its grid 0, found by hand, 0 where there is none; the reader
of document.py must agree.
"""
import struct

import archive
from archive import AT, FIELD, LENGTH, NAME, TREE, descriptor, fields, head, string, u32, u64
from calls import refusal
from document import Opened
from program import joined


def i32(*numbers):
    return struct.pack('<%di' % len(numbers), *numbers)


def i64(number):
    return struct.pack('<q', number)


def with_bits(length, *places):
    return sum(1 << place for place in places).to_bytes(length, 'little')


def doubles(count):
    """Doubles that differ from each other, with some extreme ones."""
    special = {4: -0.0, 7: float('inf'), 9: float('nan'), 11: 5e-324, 13: 1.7976931348623157e308}
    return struct.pack('<%dd' % count, *(special.get(j, (j + 1) / 7 * (-1) ** j) for j in range(count)))


MAP = FIELD['map'].decode()
# The case leaves it free.
BACKGROUND = u32(0x3f000000)


def case_a(q):
    archive.case_a(q)
    q.comment('the map, 15 doubles')
    q.put(AT['map, length'], *string(MAP))
    q.change(AT['scale values'], doubles(15))
    q.comment('one buffer, background, no tiles, one root, its origin')
    q.put(AT['buffer count'], FIELD['buffer count'], BACKGROUND, *fields('tile count', 'root count', 'root origin'))
    q.comment('child 1057 of the 5-node, child 4095 of the 4-node, bit 74 of the leaf, and of its block')
    for name in ('5-node, child mask', '4-node, child mask', 'leaf, value mask', 'block, mask'):
        q.change(AT[name], FIELD[name])
    q.comment('one value')
    q.put(AT['block, stored value 0'], FIELD['block, stored value 0'])
    archive.must_be_a(q, LENGTH, ['identity', 'background'] + [name for name in FIELD if AT['map'] < AT[name] < AT['buffer count']])


BOTH_5 = 4382, with_bits(4096, 1057)
BOTH_4 = 8991, with_bits(512, 4095)
AFFINE = 126, joined(string('AffineMap'))
NO_NAME = joined(string('') + string(TREE) + string('q'))
# A with these flags is refused with 6, in its 4-node.
PACKED = 118, u32(3)

A_FILES = [
    ('A', 0, []),
    ('end 9638', 9, [(110, u64(9638))]),
    ('flags 8', 7, [(118, u32(8))]),
    ('type Tree_int32_5_4_3', 12, [(74, b'Tree_int32_5_4_3')]),
    ('type Tree_float_5_4_2', 12, [(74, b'Tree_float_5_4_2')]),
    ('no name, parent q', 13, [(65, NO_NAME)]),
    ('flags 3: the 5-node\'s empty run takes eight bytes, and the 4-node\'s number is 1,024', 6, [(118, u32(3))]),
    ('flags 6', 6, [(118, u32(6))]),
    ('flags 7', 6, [(118, u32(7))]),
    ('flags 1: the 5-node\'s number is 0, where 131,072 bytes are due', 25, [(118, u32(1))]),
    ('flags 4', 25, [(118, u32(4))]),
    ('flags 5', 25, [(118, u32(5))]),
    ('flags 3, the 5-node\'s number 1', 6, [(118, u32(3)), (8479, i64(1))]),
    ('flags 3, the 5-node\'s number -1', 25, [(118, u32(3)), (8479, i64(-1))]),
    ('flags 3, no root', 0, [(118, u32(3)), (270, u32(0))]),
    ('flags 5, no root', 0, [(118, u32(5)), (270, u32(0))]),
    ('flags 0', 2, [(118, u32(0))]),
    ('AffineMap', 14, [AFFINE]),
    ('UniformScaleMap, so that what follows begins inside the background', 15, [(126, joined(string('UniformScaleMap')))]),
    ('ScaleMap with a capital', 14, [(126, joined(string('ScaleMaP')))]),
    ('ScaleMa', 14, [(126, joined(string('ScaleMa')))]),
    ('map name past the end', 2, [(126, u32(0xffffffff))]),
    ('version 222', 0, [(8, u32(222))]),
    ('version 223', 0, [(8, u32(223))]),
    ('version 219', 4, [(8, u32(219))]),
    ('version 225', 4, [(8, u32(225))]),
    ('buffers 2', 15, [(258, u32(2))]),
    ('buffers 0', 15, [(258, u32(0))]),
    ('background 0x80000001', 0, [(262, u32(0x80000001))]),
    ('roots 257', 16, [(270, u32(257))]),
    ('roots 256, of which the second begins in the block', 17, [(270, u32(256))]),
    ('roots 2', 17, [(270, u32(2))]),
    ('roots 0', 0, [(270, u32(0))]),
    ('tiles 1, so that the masks lie 17 bytes later', 20, [(266, u32(1))]),
    ('tiles 4294967295', 2, [(266, u32(4294967295))]),
    ('tiles 4294967295, roots 257', 16, [(266, u32(4294967295, 257))]),
    ('origin (1,0,0)', 17, [(274, i32(1, 0, 0))]),
    ('origin (0,2048,0)', 17, [(274, i32(0, 2048, 0))]),
    ('origin (0,0,-1)', 17, [(274, i32(0, 0, -1))]),
    ('origin 2147479552', 0, [(274, i32(*3 * [2147479552]))]),
    ('origin -2147483648', 0, [(274, i32(*3 * [-2147483648]))]),
    ('origin 2147483647', 17, [(274, i32(2147483647, 0, 0))]),
    ('5-node, both at 1057', 18, [BOTH_5]),
    ('4-node, both at 4095', 18, [BOTH_4]),
    ('5-node, value bit 0, so that what follows lies 4 bytes later', 20, [(4382, with_bits(4096, 0))]),
    ('5-node, no child', 0, [(286, bytes(4096))]),
    ('4-node, no child', 0, [(8479, bytes(512))]),
    ('5-node byte 7', 19, [(8478, b'\x07')]),
    ('5-node byte 255', 19, [(8478, b'\xff')]),
    ('5-node byte 6', 2, [(8478, b'\x06')]),
    ('5-node byte 1', 0, [(8478, b'\x01')]),
    ('4-node byte 7', 19, [(9503, b'\x07')]),
    ('leaf byte 7', 19, [(9632, b'\x07')]),
    ('leaf byte 6', 2, [(9632, b'\x06')]),
    ('leaf byte 5', 2, [(9632, b'\x05')]),
    ('leaf byte 1', 0, [(9632, b'\x01')]),
    ('leaf byte 2', 2, [(9632, b'\x02')]),
    ('block mask empty', 20, [(9568, bytes(64))]),
    ('block mask with one more', 20, [(9568, with_bits(64, 0, 74))]),
    ('topology mask with one more', 20, [(9504, with_bits(64, 0, 74))]),
    ('block at the leaf\'s mask', 0, [(102, u64(9504))]),
    ('block at 9637', 2, [(102, u64(9637))]),
    ('block at 9638', 9, [(102, u64(9638))]),
]

# Several checks fail, and the first counts.
ORDER_FILES = [
    ('7 before 12', 7, [(118, u32(8)), (74, b'Tree_int32_5_4_3')]),
    ('12 before 13, 14, 6', 12, [(65, NO_NAME), (73, b'Tree_int32_5_4_3'), PACKED, AFFINE]),
    ('13 before 14, 6', 13, [(65, NO_NAME), PACKED, AFFINE]),
    ('14 before 15', 14, [(126, joined(string('ScaleMaP'))), (258, u32(2))]),
    ('15 before 16', 15, [(258, u32(2)), (270, u32(257))]),
    ('16 before 17', 16, [(270, u32(257)), (274, i32(1, 0, 0))]),
    ('17 before 18', 17, [(274, i32(1, 0, 0)), BOTH_5]),
    ('18 before 19, in the 5-node', 18, [BOTH_5, (8478, b'\x07')]),
    ('19 of the 5-node before 18 of the 4-node', 19, [(8478, b'\x07'), BOTH_4]),
    ('18 before 19, in the 4-node', 18, [BOTH_4, (9503, b'\x07')]),
    ('19 of the 4-node before 20', 19, [(9503, b'\x07'), (9568, bytes(64))]),
    ('20 before 19, in the block', 20, [(9568, bytes(64)), (9632, b'\x07')]),
    ('17 of a second root before 20', 17, [(270, u32(2)), (9568, bytes(64)), (9568, i32(1, 0, 0))]),
    ('14 before 6', 14, [PACKED, AFFINE]),
    ('15 before 6', 15, [PACKED, (258, u32(2))]),
    ('16 before 6', 16, [PACKED, (270, u32(257))]),
    ('17 before 6', 17, [PACKED, (274, i32(1, 0, 0))]),
    ('18 before 6, in the 5-node', 18, [PACKED, BOTH_5, (8479, i64(1))]),
    ('19 before 6, in the 5-node', 19, [PACKED, (8478, b'\x07'), (8479, i64(1))]),
    ('18 before 25, in the 5-node', 18, [(118, u32(1)), BOTH_5]),
    ('19 before 25, in the 5-node', 19, [(118, u32(1)), (8478, b'\x07')]),
    ('6 before 20', 6, [PACKED, (9568, bytes(64))]),
    ('25 before 20', 25, [(118, u32(1)), (9568, bytes(64))]),
]


def four(q):
    q.open(b'd')
    q.open(0)
    q.values(0, 0)
    q.walk(0, 1)


def first(q):
    q.open(0)


def ask_files(q, files, how=four):
    """The file as it stands is kept, and each of the others made from it."""
    q.keep()
    for name, number, changes in files:
        q.comment(name)
        q.again()
        for at, new in changes:
            q.change(at, new)
        agree(q, number)
        how(q)


def agree(q, number):
    found = refusal(lambda: Opened(q.file(), 0))
    assert found == number, (q.lines[-3:], found, number)


def fills(q):
    q.comment('absent names and numbers')
    q.open(b'e')
    q.open(b'')
    q.open(1)
    q.open(4294967295)
    q.comment('fills of leaves that are there and that are not, and into fewer and more slots')
    for asked in (b'd', 0, b'e', 1):
        q.values(asked, 0)
    for leaf, slots in ((1, 512), (2 ** 64 - 1, 512), (0, 511), (0, 513), (0, 0), (0, 600), (1, 511)):
        q.values(b'd', leaf, slots)
        q.values(0, leaf, slots)
    q.comment('runs of leaves: none, one, more than there are, slots that are not for whole leaves')
    for first, slots in ((0, 0), (1, 0), (2 ** 64 - 1, 0), (0, 512), (0, 511), (0, 513), (0, 1024), (1, 512), (2 ** 64 - 1, 512)):
        q.fill(b'd', first, slots, 'joined')
        q.fill(0, first, slots, 'joined')
    q.comment('origins of leaves: one, none, more than there are, slices of different lengths, an absent grid')
    for first, *lengths in ((0, 1, 1, 1), (2 ** 64 - 1, 0, 0, 0), (1, 1, 1, 1), (0, 2, 2, 2), (0, 1, 0, 1), (0, 1, 1, 0), (0, 0, 1, 1)):
        q.origins(b'd', first, *lengths)
        q.origins(0, first, *lengths)
    q.origins(b'e', 0, 1, 1, 1)
    q.origins(1, 0, 1, 1, 1)


def refused_fills(q):
    q.comment('the grid is refused before a leaf or slots are')
    q.put(9503, b'\x07')
    q.fill(0, 1)
    q.fill(b'd', 0, 511)
    q.origins(0, 1, 1, 1, 1)
    q.origins(b'd', 0, 1, 0, 1)
    q.comment('an absent name comes before the type')
    q.put(74, TREE.replace('float', 'int32'))
    q.open(b'e')
    q.fill(b'e', 0)


# Every cut from 118 on of A with one change. The end is at 118, and for cuts of the topology the block too, as a position past the
# cut's end is a refusal 9.
CUTS = [
    ('end at 9637', 9568, (110, u64(9637))),
    ('', 9568, (0, b'')),
    ('block mask with one more', 9568, (9568, b'\x01')),
    ('leaf byte 7', 9568, (9632, b'\x07')),
    ('', 118, (0, b'')),
    ('AffineMap', 118, AFFINE),
    ('roots 257', 118, (270, u32(257))),
    ('origin x -65535', 118, (274, i32(-65535, 0, 4096))),
    ('5-node, both at 1057', 118, BOTH_5),
    ('4-node byte 7', 118, (9503, b'\x07')),
]


def cuts(q):
    for name, block, (at, new) in CUTS:
        q.comment('cuts, block at %d, end at 118 %s' % (block, name))
        q.again()
        q.quad(102, block)
        q.quad(110, 118)
        q.change(at, new)
        q.cuts(118, LENGTH + 1)


MAPS = ('UniformScaleMap', 'ScaleMap', 'UniformScaleTranslateMap', 'ScaleTranslateMap')


def maps(q):
    """Each map, in a grid without roots."""
    for name in MAPS:
        q.comment(name)
        q.again()
        count = 18 if 'Translate' in name else 15
        end = 126 + 4 + len(name) + 8 * count + 16
        q.change(126, joined(string(name)) + doubles(count) + u32(1, 7, 0, 0))
        q.quad(110, 118)
        q.size(end)
        q.quad(102, 118)
        agree(q, 0)
        q.open(0)
        q.cuts(118, end + 1)


def two_roots(q):
    """A root more, with no child and place 0 active; the block moves behind it."""
    for name, number, origin in (('two roots', 0, (4096, 0, 4096)), ('two roots of one origin', 17, (-4096, 0, 4096))):
        q.comment(name)
        q.again()
        data = q.file()
        root = i32(*origin) + bytes(4096) + with_bits(4096, 0) + b'\0' + u32(0x40400000)
        q.size(LENGTH + len(root))
        q.change(9568, root + data[9568:])
        q.word(270, 2)
        q.quad(102, 9568 + len(root))
        agree(q, number)
        four(q)


# Each node byte

HALF = string('is_saved_as_half_float') + string('bool') + [u32(1)]


def masks_by_rule(*seeds):
    return [bytes((i * 89 + seed * 31) // 3 % 256 & (i * 57 + seed) % 256 for i in range(64)) for seed in seeds]


MASKS = masks_by_rule(5, 90)
# A leaf with a few active voxels
VOXELS = 74, 75, 79, 88


def front(version, flags, ending=''):
    """A file up to the positions of its grid, and the word of flags that stands behind these: under 222 none, and the packed byte in its place."""
    start = joined(head(version))
    start = start if version >= 222 else start[:-1] + bytes([flags])
    return start + bytes(36) + u32(0, 1) + joined(descriptor(NAME, TREE + ending)), u32(flags) if version >= 222 else b''


def zeros(flags, width, count):
    """So many stored values, all 0. With a packing flag a number stands before them, but before no halves."""
    number = i64(-count * width) if flags & 5 and (count or width == 4) else b''
    return number + bytes(count * width)


def built(version, flags, entries, width, leaves, ending='', background=BACKGROUND):
    """A file with the tree of A, but for its leaves, whose masks are given, up to where their blocks start. The end is at the grid."""
    start, word = front(version, flags, ending)
    at = len(start) + 24
    every = flags & 2 == 0 or version < 222
    byte = b'' if version < 222 else b'\0'
    fewer = 1 if version < 222 else 0
    tree = word + joined(entries) + joined(string(MAP)) + bytes(120)
    tree += FIELD['buffer count'] + background + joined(fields('tile count', 'root count', 'root origin'))
    tree += joined(fields('5-node, child mask', '5-node, value mask')) + byte + zeros(flags, width, (32768 - fewer) * every)
    tree += with_bits(512, *range(4096 - len(leaves), 4096)) + bytes(512) + byte
    tree += zeros(flags, width, (4096 - fewer * len(leaves)) * every) + b''.join(leaves)
    return start + u64(at, at + len(tree), at) + tree


def size_of_values(byte, flags, width, active):
    """How many bytes follow a leaf's node byte."""
    inactive = {2: 4, 4: 4, 5: 8}.get(byte, 0) + (64 if byte in (3, 4, 5) else 0)
    return inactive + width * (active if flags & 2 and byte != 6 else 512)


def forms(q, name, flags, entries, width):
    """Two leaves, the first with each node byte, the second with another one. What follows the node bytes is noise."""
    data = built(224, flags, entries, width, MASKS)
    q.comment('== each node byte: ' + name)
    q.make(data)
    q.size(len(data) + 4400)
    q.random(len(data), 4400, 7)
    q.change(len(data), MASKS[0])
    q.keep()
    counts = [bin(int.from_bytes(mask, 'little')).count('1') for mask in MASKS]
    for byte in (0, 1, 2, 3, 4, 5, 6, 7, 255):
        other = (byte + 3) % 7
        q.comment('leaf bytes %d and %d' % (byte, other))
        q.again()
        at = len(data) + 64
        q.put(at, bytes([byte]))
        at += 1 + size_of_values(byte, flags, width, counts[0])
        q.change(at, MASKS[1] + bytes([other]))
        end = at + 65 + size_of_values(other, flags, width, counts[1])
        q.size(end)
        agree(q, 0 if byte < 7 else 19)
        q.open(0)
        q.fill(0, 0)
        q.fill(b'd', 1)
        q.walk(0, 7, 0)
        q.cuts(len(data) + 60, end + 1)


def all_forms(q):
    forms(q, 'flags 2, width 4', 2, [u32(0)], 4)
    forms(q, 'flags 0, width 4', 0, [u32(0)], 4)
    forms(q, 'flags 2, width 2', 2, [u32(1)] + HALF + [b'\1'], 2)
    forms(q, 'flags 0, width 2', 0, [u32(1)] + HALF + [b'\1'], 2)
    forms(q, 'flags 2, half entry false', 2, [u32(1)] + HALF + [b'\0'], 4)
    half_entries(q)


def half_entry(kind, *value):
    return string('is_saved_as_half_float') + string(kind) + list(value)


INT = half_entry('int32', u32(4), u32(1))
# What the entry may be, and the width with the plain type and with the ending.
HALF_ENTRIES = [
    ('none', 4, 2, [u32(0)]),
    ('true', 2, 2, [u32(1)] + HALF + [b'\1']),
    ('bool, byte 128', 2, 2, [u32(1)] + HALF + [b'\x80']),
    ('false', 4, 4, [u32(1)] + HALF + [b'\0']),
    ('int32 1', 4, 2, [u32(1)] + INT),
    ('int32 0', 4, 2, [u32(1)] + half_entry('int32', u32(4), u32(0))),
    ('string "true"', 4, 2, [u32(1)] + half_entry('string', *string('true'))),
    ('kind Bool', 4, 2, [u32(1)] + half_entry('Bool', u32(1), b'\1')),
    ('true, then false', 4, 4, [u32(2)] + HALF + [b'\1'] + HALF + [b'\0']),
    ('false, then true', 2, 2, [u32(2)] + HALF + [b'\0'] + HALF + [b'\1']),
    ('true, then int32 1', 4, 2, [u32(2)] + HALF + [b'\1'] + INT),
    ('false, then int32 1', 4, 2, [u32(2)] + HALF + [b'\0'] + INT),
    ('int32 1, then false', 4, 4, [u32(2)] + INT + HALF + [b'\0']),
    ('another name', 4, 2, [u32(1)] + string('is_saved_as_half_floaT') + string('bool') + [u32(1), b'\1']),
]


def half_entries(q):
    """The file has as many bytes as values of that width take: it opens, and with a byte less it does not."""
    mask = MASKS[0]
    count = bin(int.from_bytes(mask, 'little')).count('1')
    for number, ending in enumerate(('', '_HalfFloat')):
        q.comment('== the entry is_saved_as_half_float, type ' + TREE + ending)
        for name, *widths, entries in HALF_ENTRIES:
            width = widths[number]
            data = built(224, 2, entries, width, [mask], ending)
            q.comment(name)
            q.make(data + mask)
            q.size(len(data) + 65 + width * count)
            q.random(len(data) + 65, width * count, 3)
            agree(q, 0)
            q.descriptor(0)
            q.fill(0, 0)
            q.size(len(data) + 64 + width * count)
            agree(q, 2)
            q.open(0)


# Version 220: positions of the block's fields, and of the root's origin

OLD_BLOCK = 157011
OLD_ORIGIN = OLD_BLOCK + 64
OLD_FILES = [
    ('version 220', 0, []),
    ('version 221', 0, [(8, u32(221))]),
    ('packed: the 5-node\'s number is 0, where 131,068 bytes are due', 25, [(21, b'\x01')]),
    ('both at 1057', 18, [(4379, with_bits(4096, 1057))]),
    ('block mask empty', 20, [(OLD_BLOCK, bytes(64))]),
    ('block origin x', 20, [(OLD_ORIGIN, i32(-3856))]),
    ('block origin y', 20, [(OLD_ORIGIN + 4, i32(0))]),
    ('block origin z', 20, [(OLD_ORIGIN + 8, i32(4096))]),
    ('buffers 2', 20, [(OLD_ORIGIN + 12, b'\x02')]),
    ('buffers 0', 20, [(OLD_ORIGIN + 12, b'\x00')]),
    ('root origin x -65536', 20, [(271, i32(-65536, 0, 4096))]),
    ('origin 2147479552', 0, [(271, i32(*3 * [2147479552])), (OLD_ORIGIN, i32(*3 * [2147479552 + 248]))]),
    ('origin -2147483648', 0, [(271, i32(*3 * [-2147483648])), (OLD_ORIGIN, i32(*3 * [-2147483648 + 248]))]),
]


def old(q):
    q.comment('== version 220')
    mask = with_bits(64, 74)
    data = built(220, 0, [u32(0)], 4, [mask]) + mask + i32(-3848, 248, 4344) + b'\1'
    assert len(data) == OLD_ORIGIN + 13
    q.make(data + bytes(2048))
    q.random(len(data), 2048, 0)
    ask_files(q, OLD_FILES)
    q.comment('cuts from the topology\'s end on')
    q.again()
    q.cuts(157000, len(data) + 2049)
    q.comment('== version 221, halves by the entry, and by the ending of the type')
    for entries, ending in ([u32(1)] + HALF + [b'\1'], ''), ([u32(0)], '_HalfFloat'):
        data = built(221, 0, entries, 2, [mask], ending) + mask + i32(-3848, 248, 4344) + b'\1'
        q.make(data + bytes(1024))
        q.random(len(data), 1024, 1)
        agree(q, 0)
        four(q)


def ask(q):
    q.comment('== case A')
    case_a(q)
    ask_files(q, A_FILES)
    q.comment('== several checks fail, and the first counts')
    q.again()
    ask_files(q, ORDER_FILES)
    q.comment('== case A asked in other ways')
    q.again()
    fills(q)
    refused_fills(q)
    q.again()
    two_roots(q)
    maps(q)
    q.comment('== cuts of case A')
    cuts(q)
    all_forms(q)
    old(q)
