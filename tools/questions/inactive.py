"""What inactive places hold that are not stored (N1), and leaves whose mask words are full, empty and mixed.

The files have the tree of case A, with several leaves. What each leaf holds is written here once more, by a table of its own and place by place; the
reader of document.py must agree.
"""
import struct

from archive import u32
from calls import after_fill
from grid import agree, built, i32, with_bits
from parts import wide
from program import noise

# For each node byte what an inactive place holds, and a selected one: the background, minus it, or the first or second value read.
HELD = {0: ('background', 'background'), 1: ('minus', 'minus'), 2: ('first', 'first'), 3: ('minus', 'background'), 4: ('first', 'background'),
        5: ('first', 'second')}
# A background, and minus it: one, either zero, NaNs with payloads, an infinity, and a pattern that would be one if it was widened.
BACKGROUNDS = [(0x3f800000, 0xbf800000), (0, 0x80000000), (0x80000000, 0), (0x7fa12345, 0xffa12345), (0xffc00001, 0x7fc00001), (0xff800000, 0x7f800000),
               (0x3c00, 0x80003c00)]
# What is read: such a pattern, a NaN, minus zero; and behind the last a half's NaN.
FIRST, SECOND = {2: 0x3c00, 4: 0x7f812345, 5: 0x80000000}, 0x7c01
# By the width: the ending of the type, and patterns that are stored; where every place is, zeros follow, and a last pattern.
ENDINGS = {4: '', 2: '_HalfFloat'}
STORED = {4: [0x40490fdb, 0x80000000, 0x7f800001, 1, 0xff800000], 2: [0x4248, 0x8000, 0x7c01, 1, 0xfc00]}
# Voxels, and selected places, some of them active
ACTIVE, SELECTED = (0, 63, 64, 74, 511), (0, 1, 63, 65, 74, 510)


class Coding:
    def __init__(self, version, flags, width):
        self.version, self.flags, self.width = version, flags, width

    def packed(self, run):
        return struct.pack('<%d%s' % (len(run), 'I' if self.width == 4 else 'H'), *run)

    def value(self, pattern):
        return wide(pattern) if self.width == 2 else pattern


class Leaf:
    """A leaf's node byte, active and selected places, and patterns to be stored, of which the first are, as many as there are stored places."""

    def __init__(self, byte, active, selected, patterns):
        self.byte, self.active, self.selected, self.patterns = byte, active, selected, patterns

    def run(self, coding):
        """The stored patterns."""
        every = coding.version < 222 or not coding.flags & 2 or self.byte == 6
        return self.patterns[:512 if every else len(self.active)]

    def head(self, coding, z):
        """Its block up to the run."""
        found = with_bits(64, *self.active)
        if coding.version < 222:
            return found + i32(-3848, 248, z) + b'\1'
        read = [FIRST[self.byte]] if self.byte in FIRST else []
        return found + bytes([self.byte]) + u32(*read + [SECOND] * (self.byte == 5)) + with_bits(64, *self.selected) * (self.byte in (3, 4, 5))

    def values(self, coding, background, minus):
        """Its 512 values, by the table above."""
        run = self.run(coding)
        stored = dict(zip(range(512) if len(run) == 512 else sorted(self.active), run))
        what = {'background': background, 'minus': minus, 'first': FIRST.get(self.byte), 'second': SECOND}
        return [coding.value(stored[place]) if place in stored else what[HELD[self.byte][place in self.selected]] for place in range(512)]


def front(coding, background, leaves):
    """A file up to the blocks of these leaves."""
    masks = [with_bits(64, *leaf.active) for leaf in leaves]
    return built(coding.version, coding.flags, [u32(0)], coding.width, masks, ENDINGS[coding.width], u32(background))


def made(coding, background, leaves):
    """The whole file, and where their runs start."""
    data, runs = front(coding, background, leaves), []
    for number, leaf in enumerate(leaves):
        data += leaf.head(coding, 4352 - 8 * (len(leaves) - number))
        runs.append(len(data))
        data += coding.packed(leaf.run(coding))
    return data, runs


def ask_leaves(q, found, word='fill'):
    """Each leaf by itself, then three at a time, so that each stands before, between and behind others."""
    agree(q, 0)
    for leaf, values in enumerate(found):
        q.fill(0 if leaf % 2 else b'd', leaf, 512, word, after_fill(' f', values, word == 'values'))
    for first in range(len(found) - 2):
        q.fill(0, first, 1536, 'joined', after_fill(' f', sum(found[first:first + 3], []), False))


# Backgrounds

def ask_backgrounds(q, coding, backgrounds, word='fill'):
    """A leaf of each node byte. Of each file but the first only that is put which is otherwise."""
    leaves = [Leaf(byte, ACTIVE, SELECTED, STORED[coding.width] + 506 * [0] + [0x3c00]) for byte in range(7)]
    for background, minus in backgrounds:
        data, _ = made(coding, background, leaves)
        q.comment('version %d, flags %d, width %d, background %08x' % (coding.version, coding.flags, coding.width, background))
        if q.length == len(data):
            q.change(0, data)
        else:
            q.make(data)
        ask_leaves(q, [leaf.values(coding, background, minus) for leaf in leaves], word)
        word = 'fill'


def backgrounds(q):
    q.comment('== inactive places: leaves of each node byte')
    for width in (4, 2):
        ask_backgrounds(q, Coding(224, 2, width), BACKGROUNDS, 'values')
        for version in (222, 223):
            ask_backgrounds(q, Coding(version, 2, width), BACKGROUNDS[3:4])
    q.comment('every place is stored: without flag 2, and under 222')
    for coding in (Coding(224, 0, 4), Coding(222, 0, 2), Coding(220, 0, 4), Coding(221, 0, 2)):
        ask_backgrounds(q, coding, BACKGROUNDS[:1])


# Words of a mask

FULL, EVEN, ENDS = 2 ** 64 - 1, 0x5555555555555555, 1 | 1 << 63
ODD, FIRST_32, LAST_32, ONE_31, ONE_32, ONE_63 = FULL ^ EVEN, FULL >> 32, FULL ^ FULL >> 32, 1 << 31, 1 << 32, 1 << 63
# Eight words of active and eight of selected places each. Full, empty and every other place in turn; none; all; ends of words; all but these; every
# other place, either way; words that lack one place or have one, and halves of words. Of the words with inactive places some have none of them
# selected, some all of them and no other, some all but one, some all and one more.
SHAPES = [
    ([FULL, 0, FULL, EVEN, FULL, ODD, 0, FULL], [0, FULL, FULL, ODD, 0, FULL, EVEN, 0]),
    (8 * [0], [0, FULL, EVEN, ODD, 1, ONE_63, FULL ^ 1, FULL >> 1]),
    (8 * [FULL], 8 * [EVEN]),
    ([ENDS, ENDS, 1, 0, ONE_63, 1, ONE_63, ONE_63], [FULL ^ ENDS, FULL ^ ENDS ^ ONE_31, FULL ^ 1, FULL, FULL >> 1, 1, ENDS, FULL]),
    (8 * [FULL ^ ENDS], [ENDS, 1, ONE_63, 0, FULL, FULL ^ ENDS, ENDS | ONE_31, ENDS]),
    (8 * [EVEN], [ODD, EVEN, FULL, 0, ODD ^ ONE_63, ODD | 1, ODD, 1]),
    (8 * [ODD], [EVEN, ODD, 0, FULL, EVEN ^ 1, EVEN | ONE_63, 1, EVEN]),
    ([FULL ^ 1, FULL >> 1, FIRST_32, LAST_32, ONE_31, ONE_32, FULL ^ ONE_31, FULL],
     [1, ONE_63, LAST_32, FIRST_32, FULL ^ ONE_31, FULL ^ ONE_32 ^ 1, ONE_32, ONE_63]),
]


def places_of(words):
    return [64 * number + bit for number, word in enumerate(words) for bit in range(64) if word >> bit & 1]


def shaped(coding, byte):
    """A leaf of each shape, each with another node byte. What is stored is noise."""
    leaves = []
    for number, (active, selected) in enumerate(SHAPES):
        stored = struct.unpack('<512' + ('I' if coding.width == 4 else 'H'), noise(512 * coding.width, 9 * number + byte))
        leaves.append(Leaf((byte + number) % 7, places_of(active), places_of(selected), stored))
    return leaves


def ask_shapes(q, coding, byte):
    """The topology is kept; the blocks are put behind it."""
    leaves = shaped(coding, byte)
    data, runs = made(coding, 0x3fc00000, leaves)
    q.comment('leaf byte %d and those after it, width %d' % (byte, coding.width))
    q.again()
    q.size(len(data))
    for number, (at, leaf) in enumerate(zip(runs, leaves)):
        if leaf.run(coding):
            q.random(at, len(leaf.run(coding)) * coding.width, 9 * number + byte)
    q.change(0, data)
    ask_leaves(q, [leaf.values(coding, 0x3fc00000, 0xbfc00000) for leaf in leaves])


def shapes(q):
    q.comment('== words of a leaf\'s mask and of its selection: full, empty, with every other place, with the ends')
    for width in (4, 2):
        coding = Coding(224, 2, width)
        q.make(front(coding, 0x3fc00000, shaped(coding, 0)))
        q.keep()
        for byte in range(7):
            ask_shapes(q, coding, byte)


# Halves

# Of either sign zero, subnormal, infinite, not a number; and the least and the largest normal one.
SPECIAL = [0, 0x8000, 1, 0x83ff, 0x7c00, 0xfc00, 0x7c01, 0xfe00, 0x0400, 0xfbff]
# A leaf with full words, and one with a full word between mixed ones
MIXED = [EVEN, FULL, FULL ^ 1, FULL >> 1, 0, 1, ODD, ENDS]
# Numbers of stored values: at the start, inside and at the end of a word of either leaf.
TURNED = [(0, 0), (0, 63), (0, 64), (0, 64 + 37), (0, 511), (1, 0), (1, 31), (1, 32), (1, 32 + 20), (1, 32 + 63), (1, 96 + 5)]


def halves(q):
    """Normal halves alone, then another one among them."""
    q.comment('== halves: full and mixed words of normal ones, then with another one among them')
    coding = Coding(224, 2, 2)
    normal = [0x3c00 + 5 * number if number % 3 else 0xc001 + number for number in range(512)]
    leaves = [Leaf(1, places_of(8 * [FULL]), (), normal), Leaf(4, places_of(MIXED), places_of(8 * [ODD]), normal)]
    q.make(made(coding, 0x3fc00000, leaves)[0])
    q.keep()
    for special in [None, *SPECIAL]:
        for leaf, number in TURNED if special is not None else [(0, 0)]:
            changed = [Leaf(one.byte, one.active, one.selected, list(normal)) for one in leaves]
            if special is not None:
                changed[leaf].patterns[number] = special
            q.again()
            q.change(0, made(coding, 0x3fc00000, changed)[0])
            found = [one.values(coding, 0x3fc00000, 0xbfc00000) for one in changed]
            q.fill(0, leaf, 512, 'fill', after_fill(' f', found[leaf], False))
            q.fill(b'd', 0, 1024, 'joined', after_fill(' f', sum(found, []), False))


def ask(q):
    backgrounds(q)
    shapes(q)
    halves(q)
