"""The stored files, and what OpenVDB's library says of them.

tools/openvdb describes each of them, in NAME.txt and NAME.values, by a program against OpenVDB's own library (its README.md
has the form of the lines). The answers here are those lines in another order; the reader of document.py must give the same.
"""
import re

import readers
from calls import after_fill
from program import in_quotes

# The files of which each leaf's values are shown one by one, and not by their sum alone.
SHOWN = ['forms_active', 'half_active']
ENTRY = re.compile(r'entry "((?:[^"\\]|\\.)*)" "((?:[^"\\]|\\.)*)" ?(.*)')
TEXT = re.compile(r'(\d+) (\d+) "(.*)"')
LETTERS = {'int32': 'i', 'int64': 'l', 'float': 'f', 'vec3i': 'v'}


def plain(shown):
    """The bytes that are shown between quotes."""
    return re.sub(rb'\\(x..|.)', lambda m: bytes([int(m[1][1:], 16)]) if len(m[1]) == 3 else m[1], shown.encode())


def span(words):
    """Of START LENGTH "TEXT"."""
    start, length, shown = TEXT.fullmatch(words).groups()
    return ' %s %s %s' % (start, length, in_quotes(plain(shown)))


def entry(line):
    """The name, and what the program answers."""
    name, kind, value = ENTRY.fullmatch(line).groups()
    if kind == 'string':
        answer = ' s' + span(value)
    elif kind == 'bool':
        answer = ' b %d' % (value == 'true')
    elif kind in LETTERS:
        answer = ' %s %s' % (LETTERS[kind], value)
    else:
        # The kind's name stands before the length field, which stands before the value.
        start, length, digits = (value + ' ').split(' ')[:3]
        name_at = int(start) - 4 - len(plain(kind))
        answer = ' o %d %d %s %s %s %s' % (name_at, len(plain(kind)), in_quotes(plain(kind)), start, length,
                                           in_quotes(bytes.fromhex(digits)))
    return plain(name), answer


class Described:
    """The lines about a file, or about one of its grids."""

    def __init__(self, lines):
        self.lines = lines
        self.entries = dict(entry(line) for line in lines if line.startswith('entry '))
        self.refused = ''.join(' ' + line for line in lines if line.startswith('refused '))

    def field(self, label):
        """What stands behind the first such label."""
        return next(line[len(label) + 1:] for line in self.lines if line.startswith(label + ' '))

    def header(self, grids):
        """Under 222 the flags of each grid are the packed byte's."""
        packed = self.refused == '' and int(self.field('version')) < 222 and any(grid.field('flags') == '1' for grid in grids)
        return self.refused or ' %s %s %d %s %s%s' % (
            self.field('version'), self.field('library'), packed, self.field('metadata').split()[0], self.field('grids'),
            span(self.field('identity')))

    def name(self):
        return plain(TEXT.fullmatch(self.field('name'))[3])

    def descriptor(self):
        width = 2 if self.entries.get(b'is_saved_as_half_float') == ' b 1' else 4
        return ''.join(span(self.field(label)) for label in ('name', 'type', 'parent')) + ' %s %s %d %s %s' % (
            self.field('positions'), self.field('flags'), width, self.field('metadata').split()[0], self.field('follows'))

    def opened(self):
        case = 't' if 'Translate' in self.field('map') else 's'
        vectors = ''.join(line[len('vector'):] for line in self.lines if line.startswith('vector '))
        return self.refused or ' %s%s %s %s %s %s' % (
            case, vectors, *map(self.field, ('background', 'roots', 'leaves', 'records')))


def described(name):
    lines = readers.printed(name, 'txt')
    starts = [i for i, line in enumerate(lines) if re.fullmatch(r'grid \d+', line)] + [len(lines)]
    return Described(lines[:starts[0]]), [Described(lines[a:b]) for a, b in zip(starts, starts[1:])]


def entries(described):
    """Each entry that is there with its answer, one that is not, and the empty name."""
    return [(name, described.entries.get(name, ' refused 11')) for name in list(described.entries) + [b'absent', b'']]


def ask_leaf(q, asked, leaf, answer, values, word='fill', count=1):
    q.fill(asked, leaf, 512 * count, word, after_fill(answer, values, word == 'values'))


def ask_joined(q, number, name, found, refused):
    """Up to three leaves at once, from the first on, before the end, and past it."""
    count = len(found)
    for asked, first, leaves in ((number, 0, 0), (number, 0, min(count, 3)), (name, max(count - 2, 0), min(count, 2)), (name, count, 0)):
        ask_leaf(q, asked, first, refused or ' f', sum(found[first:first + leaves], []), 'joined', leaves)
    for asked in (number, name):
        ask_leaf(q, asked, max(count - 1, 0), refused or ' refused 21', [], 'joined', min(count, 1) + 1)


def ask_grid(q, number, grid, found, word):
    name = grid.name()
    for asked in (number, name):
        q.descriptor(asked, grid.descriptor())
    for entry, answer in entries(grid):
        for asked in (number, name):
            q.metadata(asked, entry, answer)
    for asked in (number, name):
        q.open(asked, grid.opened())
    count = len(found)
    for leaf in range(count):
        ask_leaf(q, number, leaf, ' f', found[leaf], word)
    for asked in (number, name):
        ask_leaf(q, asked, count, grid.refused or ' refused 21', [])
    if count:
        ask_leaf(q, name, count - 1, ' f', found[count - 1])
    ask_joined(q, number, name, found, grid.refused)


def ask_grids(q, grids, leaves, word):
    for number, grid in enumerate(grids):
        ask_grid(q, number, grid, leaves.get(number, []), word)
    for asked in (len(grids), b'absent'):
        q.descriptor(asked, ' refused 11')
        q.open(asked, ' refused 11')
        ask_leaf(q, asked, 0, ' refused 11', [])


def ask_file(q, name):
    file, grids = described(name)
    q.comment('== ' + name)
    at, before = len(q.lines), q.agreed
    q.load(name + '.vdb', readers.stored(name))
    q.header(file.header(grids))
    if not file.refused:
        for entry, answer in entries(file):
            q.entry(entry, answer)
        ask_grids(q, grids, readers.leaves(name), 'values' if name in SHOWN else 'fill')
    q.comments(at, readers.lines(name, q.agreed - before))


def ask(q):
    for name in readers.FILES:
        ask_file(q, name)
