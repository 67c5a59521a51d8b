"""Questions to the walk call: document 01, section 7 and row 22 of section 8.

What must be handed out is what tools/openvdb prints of OpenVDB's own tree, in the order of section 7; the reader of document.py
must have the same list. Of a place that was never reached over the bytes only this is settled: 22 and all slots as they were, or
records: no more than slots and than are left, one at least where there are some of both, all other slots as they were, so many
fewer left, told and in the place handed back, which is one of the same grid. The lines `Foreign` count the calls that are answered
so, the lines `Past` those that get 22 and leave all slots as they were, as they must where slots are lent, records are left and
the field needed is past the end.

Each number can be wrong. A fault in crates/walk/src/lib.rt, and what it changes in the lines (tried with `rt try` in crates/questions):

    a slot behind the filled ones written             Walk, Next: the third number; Foreign: the second
    a slot written where none is lent                 Walk, Next: the third number
    a record more reported as filled                  Walk, Next: the first and the fourth; Foreign with few slots: the second
    a record more, or none, reported as left          Walk, Next: the second and the fourth; Foreign: the second
    other records where x has more slots than y       Walk, Next: the fifth, and the sum
    y and z exchanged                                 Walk, Next: the sum; List
    the place handed back is the one that was given   Walk: the first, the second, the fourth, and the sum
    21 in place of 22, or 22 with a slot written      Next of row 22; Foreign, Past: the second
    no record in place of 22                          Past: the second
    another start in the place that is handed back    Foreign: the second
    23 for a place with a word that is all ones       Foreign with 2 ** 64 - 1: the second is 0, so that each of the 35 words was set
"""
import grid
import readers
from archive import LENGTH
from calls import listed, walked, walked_whole
from document import Opened
from openvdb import described

PORTIONS = [(0,), (1,), (2,), (3,), (7,), (64,), (1000,), (0, 1), (0, 0, 2, 0, 3, 0), (7, 0, 64, 1, 1000, 3), (3, 2, 1, 0, 7),
            (1000, 0, 1)]
# A list with more records is not shown.
SHOWN = 200
# The grids of these files are alike but for backgrounds and node bytes, which no record shows: places of one of them are tried.
ALIKE = ['backgrounds', 'backgrounds_half', 'old_backgrounds']
# What a word of a place is set to: 0, 1, a large number, all ones; then widths, ends of masks, origins, all ones of 32 bits.
VALUES = [0, 1, 2 ** 63 + 2 ** 31, 2 ** 64 - 1]
OTHERS = [2, 4, 512, 4096, 2147479552, 2 ** 32 - 1, 2 ** 64 - 4096]


class Cloud:
    """A grid of a file that OpenVDB has written: the file's name and length, the grid's number, where its tree starts, where
    its blocks start, and its records."""

    def __init__(self, name, data, number, found):
        self.name, self.length, self.number = name, len(data), number
        self.tree = int(found.field('follows'))
        self.block = int(found.field('positions').split()[1])
        at = found.lines.index('records ' + found.field('records')) + 1
        self.records = [tuple(map(int, words[:4])) + (int(words[4], 16),) for words in map(str.split, found.lines[at:])]
        assert len(self.records) == int(found.field('records'))
        assert self.records == Opened(data, number).active(), (name, number)

    def starts(self):
        """Numbers of records after which a walk may stand, some of them left; calls with 1,000 slots reach them."""
        count = len(self.records)
        return sorted({0, 1, count // 3, min(count, 1000) - 1} & set(range(count)))


def clouds():
    """Each file's name and refusal, and of each grid the refusal or a Cloud."""
    files = []
    for name in readers.FILES:
        file, grids = described(name)
        data = readers.stored(name)
        files.append((name, file.refused, [found.refused or Cloud(name, data, number, found) for number, found in enumerate(grids)]))
    return files


def load(q, name):
    q.load(name + '.vdb', readers.stored(name))


# Walks over the bytes that the grid was opened from

def ask_whole(q, number, cloud):
    if isinstance(cloud, str):
        q.walk(number, 1, other=cloud)
        return
    for portions in PORTIONS:
        q.walk(number, *portions, other=walked_whole(cloud.records, portions))
    if len(cloud.records) <= SHOWN:
        q.list(number, listed(cloud.records))


def ask_next(q, cloud):
    """Where a file has several grids, the place tells which one it is."""
    for start in cloud.starts() + [len(cloud.records)][:len(cloud.records) <= 1000]:
        for slots in (0, 7, 1000):
            q.next(cloud.length, cloud.number, start, slots, walked(cloud.records, start, slots))


def ask_file(q, name, refused, found):
    q.comment('== walks: %s, whose readers are told above' % name)
    load(q, name)
    for number, cloud in enumerate(found):
        ask_whole(q, number, cloud)
    q.walk(len(found), 1, other=refused or ' refused 11')
    q.keep()
    for cloud in found:
        if isinstance(cloud, Cloud):
            ask_next(q, cloud)


# Places that were never reached over the bytes

def try_words(q, cloud):
    """Each word of a place set, over the same file."""
    for start in cloud.starts()[:3]:
        for value in VALUES + OTHERS + [cloud.length, cloud.block]:
            q.tried('Foreign', cloud.length, cloud.number, start, 1000, value)
    for value in VALUES:
        for slots in (0, 1):
            q.tried('Foreign', cloud.length, cloud.number, len(cloud.records) // 3, slots, value)


def try_cuts(q, cloud):
    """The file cut: where nothing of the tree is left, and at many lengths after that."""
    for start in cloud.starts():
        q.tried('Past', cloud.length, cloud.number, start, 1, 0, cloud.tree + 1)
        for first, last in ((cloud.tree, cloud.tree + 500), (cloud.block - 300, cloud.block + 700), (cloud.length - 500, cloud.length)):
            q.tried('Foreign', cloud.length, cloud.number, start, 7, first, min(last, cloud.length))


def try_nothing(q, cloud):
    """No bytes at all. Where no record is left no field is needed, so that a word set to 0 may be answered otherwise."""
    for start in cloud.starts():
        q.tried('Foreign', cloud.length, cloud.number, start, 0)
        q.tried('Past', cloud.length, cloud.number, start, 1)
    for value in VALUES:
        q.tried('Past' if value else 'Foreign', cloud.length, cloud.number, len(cloud.records) // 3, 1000, value)


def try_places(q, cloud):
    """A cloud's places, with words set, over the file cut, over the other files, over no bytes and over noise."""
    q.comment('== places: %s, grid %d' % (cloud.name, cloud.number))
    load(q, cloud.name)
    q.keep()
    try_words(q, cloud)
    try_cuts(q, cloud)
    for name in [other for other in readers.FILES if other != cloud.name]:
        load(q, name)
        q.tried('Foreign', cloud.length, cloud.number, len(cloud.records) // 3, 7)
    q.new(0)
    try_nothing(q, cloud)
    q.new(cloud.length)
    q.random(0, cloud.length, 11)
    for start in cloud.starts():
        q.tried('Foreign', cloud.length, cloud.number, start, 7)


# Case A

def ask_case_a(q):
    q.comment('== walks: case A')
    grid.case_a(q)
    q.list(0)
    for portions in PORTIONS:
        q.walk(0, *portions)
    q.keep()
    records = Opened(q.file(), 0).active()
    assert records == [(-3847, 249, 4346, 0, 0x3f800000)]
    for start in (0, 1):
        for slots in (0, 1, 2, 1000):
            q.next(LENGTH, 0, start, slots, walked(records, start, slots))
    q.comment('row 22: the empty file, one slot; the same without a slot, which changes nothing; the place at the end')
    q.size(0)
    q.next(LENGTH, 0, 0, 1, ' refused 22 1')
    q.next(LENGTH, 0, 0, 0, walked(records, 0, 0))
    q.tried('Foreign', LENGTH, 0, 1, 1)
    for value in VALUES[1:]:
        q.tried('Past', LENGTH, 0, 0, 1, value)
    q.comment('cuts: the root\'s origin ends at 286')
    q.again()
    for slots in (1, 1000):
        q.tried('Past', LENGTH, 0, 0, slots, 0, 286)
        q.tried('Foreign', LENGTH, 0, 0, slots, 286, LENGTH)
        for value in VALUES + OTHERS:
            q.tried('Foreign', LENGTH, 0, 0, slots, value)


def ask(q):
    ask_case_a(q)
    files = clouds()
    for file in files:
        ask_file(q, *file)
    for name, _, found in files:
        for cloud in found[:1] if name in ALIKE else found:
            if isinstance(cloud, Cloud) and cloud.records:
                try_places(q, cloud)
