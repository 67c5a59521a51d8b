"""Numbers before runs: with flag 0x1 or 0x4 an i64 stands before each run of stored values, but before an empty run of halves (N3).

The files are made from the tree of case A. Each stands with the refusal that opening its grid 0 gets, found by hand, 0 where there is
none; the reader of document.py must agree.
"""
from archive import FIELD, fields, string, u32, u64
from calls import refusal
from document import Opened
from grid import BACKGROUND, MAP, VOXELS, agree, ask_files, built, first, front, i32, i64, with_bits, zeros
from program import joined

# A as OpenVDB writes it with flags 3: where the numbers stand, before the empty runs of its nodes and before its value.
RAW_5, RAW_4, RAW_LEAF, RAW_LENGTH = 8479, 9512, 9649, 9661
# The same in halves, whose type is ten bytes longer: there is one number.
HALF_LEAF, HALF_LENGTH = 9643, 9653
RAW_FILES = [
    ('flags 3', 0, []),
    ('flags 6', 0, [(118, u32(6))]),
    ('flags 7', 0, [(118, u32(7))]),
    ('flags 3, version 222', 0, [(8, u32(222))]),
    ('flags 6, version 223', 0, [(118, u32(6)), (8, u32(223))]),
    ('flags 2: the 4-node begins with the 5-node\'s number, and has no child', 0, [(118, u32(2))]),
]
RAW_ORDER = [
    ('6 of the 5-node before 25 of the 4-node', 6, [(RAW_5, i64(1)), (RAW_4, i64(-1))]),
    ('25 of the 5-node before 6 of the 4-node', 25, [(RAW_5, i64(-1)), (RAW_4, i64(1))]),
    ('6 of the 4-node before 25 of the leaf', 6, [(RAW_4, i64(1)), (RAW_LEAF, i64(-1))]),
    ('25 of the 4-node before 6 of the leaf', 25, [(RAW_4, i64(-1)), (RAW_LEAF, i64(1))]),
    ('6 of the 5-node before 18 of the 4-node', 6, [(RAW_5, i64(1)), (8999, with_bits(512, 4095))]),
    ('18 before 6, in the 4-node', 18, [(8999, with_bits(512, 4095)), (RAW_4, i64(1))]),
    ('19 before 6, in the 4-node', 19, [(9511, b'\7'), (RAW_4, i64(1))]),
    ('6 of the 4-node before 20', 6, [(RAW_4, i64(1)), (9584, bytes(64))]),
    ('25 of the 4-node before 20', 25, [(RAW_4, i64(-1)), (9584, bytes(64))]),
    ('20 before 6, in the block', 20, [(9584, bytes(64)), (RAW_LEAF, i64(1))]),
    ('19 before 25, in the block', 19, [(9648, b'\7'), (RAW_LEAF, i64(0))]),
]
# A number, and with what it is refused before no float, before a float and before a half.
NUMBERS = [
    (0, 0, 25, 25), (1, 6, 6, 6), (4, 6, 6, 6), (-1, 25, 25, 25), (-2, 25, 25, 0), (-3, 25, 25, 25), (-4, 25, 0, 25), (-5, 25, 25, 25),
    (2 ** 63 - 1, 6, 6, 6), (-2 ** 63, 25, 25, 25), (-2 ** 32, 25, 25, 25), (2 ** 32 - 4, 6, 6, 6), (-2 ** 32 - 4, 25, 25, 25),
]


def put_number(q, at, number):
    q.quad(at, number % 2 ** 64)


def ask_numbers(q, at, numbers):
    """Each number at a position, with its refusal."""
    for number, expected in numbers:
        q.again()
        put_number(q, at, number)
        agree(q, expected)
        first(q)


def raw_a(q, ending):
    """A with numbers, in floats or, with the ending of the type, in halves; by the flags 3."""
    mask, value = FIELD['block, mask'], b'\0\x3c' if ending else FIELD['block, stored value 0']
    q.make(built(224, 3, [u32(0)], len(value), [mask], ending) + mask + b'\0' + i64(-len(value)) + value)


def in_all_ways(q, leaves):
    """What an accepted grid is asked: all of its leaves, and all of its records."""
    first(q)
    q.fill(b'd', leaves - 1)
    q.fill(0, 0, 512 * leaves, 'joined')
    q.origins(0, 0, *3 * [leaves])
    q.walk(0, 2, 0, 1)


def agree_cuts(q, start, whole, end, number):
    """The file cut to lengths from `start` on is refused with 2, and from `whole` on with this number."""
    found = [refusal(lambda: Opened(q.file()[:length], 0)) for length in range(start, end)]
    assert found == (whole - start) * [2] + (end - whole) * [number], (q.lines[-3:], found)
    q.cuts(start, end)


def cut_numbers(q):
    """The number is whole before it is looked at, and looked at before the run behind it."""
    for at, right in (RAW_5, 0), (RAW_4, 0), (RAW_LEAF, -4):
        for number, expected in (right, 2), (1, 6), (-1, 25), (-2 ** 63, 25):
            q.again()
            put_number(q, at, number)
            if at != RAW_LEAF:
                q.quad(102, 118)
            agree_cuts(q, at - 1, at + 8, at + 12, expected)
    q.again()
    agree_cuts(q, RAW_LEAF - 1, RAW_LENGTH, RAW_LENGTH + 1, 0)


def refused_numbers(q):
    """The grid is refused before a leaf or slots are."""
    q.again()
    for number in (1, -1):
        put_number(q, RAW_4, number)
        q.values(0, 1)
        q.fill(b'd', 0, 511)
        q.fill(0, 0, 512, 'joined')
        q.origins(b'd', 1, 1, 0, 1)
        q.walk(0, 1)


def two_roots(q):
    """A root more, with no child and place 0 active; the block moves behind it."""
    q.again()
    data = q.file()
    root = i32(4096, 0, 4096) + bytes(4096) + with_bits(4096, 0) + b'\0' + i64(-4) + u32(0x40400000)
    q.size(len(data) + len(root))
    q.change(9584, root + data[9584:])
    q.word(270, 2)
    q.quad(102, 9584 + len(root))
    agree(q, 0)
    in_all_ways(q, 1)
    q.list(0)


def floats(q):
    q.comment('== A with numbers before its runs')
    raw_a(q, '')
    assert q.length == RAW_LENGTH
    ask_files(q, RAW_FILES)
    q.again()
    in_all_ways(q, 1)
    q.comment('two roots')
    two_roots(q)
    q.again()
    ask_files(q, RAW_ORDER, first)
    for name, at, column in (('5-node', RAW_5, 1), ('4-node', RAW_4, 1), ('leaf', RAW_LEAF, 2)):
        q.comment('numbers of the ' + name)
        ask_numbers(q, at, [(row[0], row[column]) for row in NUMBERS])
    q.comment('cuts in the numbers and behind them')
    cut_numbers(q)
    q.comment('fills, origins and walks of a refused grid')
    refused_numbers(q)


def moved_on(q, at):
    """Eight zeros put in at a position before the block, which moves."""
    data = q.file()
    q.size(len(data) + 8)
    q.change(at, bytes(8) + data[at:])
    q.quad(112, int.from_bytes(data[112:120], 'little') + 8)


def halves(q):
    q.comment('== the same in halves: no number stands before an empty run')
    raw_a(q, '_HalfFloat')
    assert q.length == HALF_LENGTH
    ask_files(q, [('flags %d' % flags, 0, [(128, u32(flags))]) for flags in (3, 6, 7)])
    q.again()
    in_all_ways(q, 1)
    ask_numbers(q, HALF_LEAF, [(row[0], row[3]) for row in NUMBERS])
    q.again()
    agree_cuts(q, HALF_LEAF - 1, HALF_LENGTH, HALF_LENGTH + 1, 0)
    for name, at, number in (('5-node: the 4-node has no child, and one active place', 8489, 25), ('4-node: the leaf\'s mask', 9514, 20)):
        q.comment('a number 0 in the ' + name)
        q.again()
        moved_on(q, at)
        agree(q, number)
        first(q)


# Where every place is stored: the numbers' positions, how many values are behind them, and how many bytes
EVERY = [('5-node', 8479, 32768, 131072), ('4-node', 140584, 4096, 16384), ('leaf', 157105, 512, 2048)]
EVERY_LENGTH = 159161


def every(q):
    """Without flag 0x2."""
    q.comment('== numbers before runs of all places')
    mask = FIELD['block, mask']
    data = built(224, 1, [u32(0)], 4, [mask]) + mask + b'\0'
    q.make(data + i64(-2048) + bytes(2048))
    q.random(len(data) + 8, 2048, 5)
    assert q.length == EVERY_LENGTH
    ask_files(q, [('flags %d' % flags, 0, [(118, u32(flags))]) for flags in (1, 4, 5)])
    q.again()
    in_all_ways(q, 1)
    for name, at, count, size in EVERY:
        q.comment('numbers of the ' + name)
        ask_numbers(q, at, [(1, 6), (size, 6), (0, 25), (-count, 25), (1 - size, 25), (-1 - size, 25), (4 - size, 25), (-4 - size, 25)])
        q.again()
        q.quad(102, 118 if name != 'leaf' else 157040)
        agree_cuts(q, at - 1, at + 10, at + 10, 0)
        agree_cuts(q, at + 6 + size, at + 8 + size, at + 8 + size + (name == 'leaf'), 0)


# A tree with active places in each node, a leaf without and one with active voxels; the blocks stand behind all that the topology may take.
FIVE, FOUR, BLOCKS = (0, 1056, 1058, 32767), (0, 9, 20), 170000


def put_values(q, at, byte, flags, width, places, active):
    """A node byte, and behind it noise with a number before the run. Where the number stands, and where the run ends."""
    inactive = {2: 4, 4: 4, 5: 8}.get(byte, 0) + (places // 8 if byte in (3, 4, 5) else 0)
    run = zeros(flags, width, active if flags & 2 and byte != 6 else places)
    number = at + 1 + inactive
    q.put(at, bytes([byte]))
    if inactive + len(run):
        q.random(at + 1, inactive + len(run), at % 97)
    if run:
        put_number(q, number, int.from_bytes(run[:8], 'little'))
    return number, number + len(run)


def put_tree(q, at, flags, width, byte):
    """A 5-node's values, then a 4-node and the leaves' masks, then their blocks, with four node bytes. Where the numbers stand, and where the runs end."""
    five, four, empty, full = ((byte + more) % 7 for more in range(4))
    found = [put_values(q, at, five, flags, width, 32768, len(FIVE))]
    at = found[-1][1]
    q.change(at, with_bits(512, 4094, 4095) + with_bits(512, *FOUR))
    found.append(put_values(q, at + 1024, four, flags, width, 4096, len(FOUR)))
    mask = with_bits(64, *VOXELS)
    q.change(found[-1][1] + 64, mask)
    assert found[-1][1] + 128 < BLOCKS
    found.append(put_values(q, BLOCKS + 64, empty, flags, width, 512, 0))
    q.change(found[-1][1], mask)
    found.append(put_values(q, found[-1][1] + 64, full, flags, width, 512, len(VOXELS)))
    q.size(found[-1][1])
    return found


def forms(q, flags, ending, node_bytes):
    """Each node with each of these bytes, another one at a time. What follows the node bytes is noise."""
    width = 2 if ending else 4
    q.comment('== each node byte with numbers: flags %d, width %d' % (flags, width))
    start, word = front(224, flags, ending)
    at = len(start) + 24
    tree = word + u32(0) + joined(string(MAP)) + bytes(120) + FIELD['buffer count'] + BACKGROUND
    tree += joined(fields('tile count', 'root count', 'root origin', '5-node, child mask')) + with_bits(4096, *FIVE)
    q.make(start + u64(at, BLOCKS, at) + tree)
    q.keep()
    for byte in node_bytes:
        q.comment('5-node byte %d' % byte)
        q.again()
        numbers, ends = zip(*put_tree(q, at + len(tree), flags, width, byte))
        agree(q, 0)
        in_all_ways(q, 2)
        agree_cuts(q, ends[-1] - 1, ends[-1], ends[-1] + 1, 0)
        q.quad(at - 16, at)
        for number in numbers[:2]:
            agree_cuts(q, number - 1, number + 9, number + 9, 0)


def all_forms(q):
    forms(q, 3, '', range(7))
    forms(q, 6, '_HalfFloat', range(7))
    for flags, ending in (7, ''), (4, ''), (5, '_HalfFloat'):
        forms(q, flags, ending, [flags])


# Version 220 with the packed byte: the numbers of 5-node, 4-node and leaf
OLD_RAW = 8475, 140575, 157104
OLD_RAW_FILES = [
    ('packed byte 1', 0, []),
    ('packed byte 255', 0, [(21, b'\xff')]),
    ('version 221', 0, [(8, u32(221))]),
    ('packed byte 0: the 4-node begins eight bytes early, and has no child', 0, [(21, b'\0')]),
    ('5-node, 32,768 values', 25, [(OLD_RAW[0], i64(-131072))]),
    ('5-node, -32,767', 25, [(OLD_RAW[0], i64(-32767))]),
    ('5-node, 131,068', 6, [(OLD_RAW[0], i64(131068))]),
    ('4-node, 4,096 values', 25, [(OLD_RAW[1], i64(-16384))]),
    ('4-node, 1', 6, [(OLD_RAW[1], i64(1))]),
    ('leaf, 511 values', 25, [(OLD_RAW[2], i64(-2044))]),
    ('leaf, 2,048', 6, [(OLD_RAW[2], i64(2048))]),
    ('leaf, -2^63', 25, [(OLD_RAW[2], i64(-2 ** 63))]),
    ('20 before 6, for the buffers', 20, [(OLD_RAW[2] - 1, b'\2'), (OLD_RAW[2], i64(1))]),
    ('6 of the 4-node before 20', 6, [(OLD_RAW[1], i64(1)), (OLD_RAW[2] - 1, b'\2')]),
]


def old(q):
    q.comment('== version 220, packed, with numbers before its runs')
    mask = FIELD['block, mask']
    data = built(220, 1, [u32(0)], 4, [mask]) + mask + i32(-3848, 248, 4344) + b'\1'
    assert len(data) == OLD_RAW[2]
    q.make(data + i64(-2048) + bytes(2048))
    q.random(len(data) + 8, 2048, 2)
    ask_files(q, OLD_RAW_FILES, first)
    q.again()
    in_all_ways(q, 1)
    agree_cuts(q, OLD_RAW[2] - 1, OLD_RAW[2] + 10, OLD_RAW[2] + 10, 0)
    agree_cuts(q, len(data) + 2054, len(data) + 2056, len(data) + 2057, 0)
    q.comment('== version 221, packed, halves by the ending of the type')
    data = built(221, 1, [u32(0)], 2, [mask], '_HalfFloat') + mask + i32(-3848, 248, 4344) + b'\1'
    q.make(data + i64(-1024) + bytes(1024))
    q.random(len(data) + 8, 1024, 4)
    agree(q, 0)
    in_all_ways(q, 1)


def ask(q):
    floats(q)
    halves(q)
    every(q)
    all_forms(q)
    old(q)
