#!/usr/bin/env python3
"""Prints a cloud in the text of README.md, by document 01. All reading is tools/questions/document.py's, here is only the text.

    by_document.py FILE [--values] [--more] [--read]

With --read a leaf's places hold zero wherever the file brings no value for them, as in the Rust (D38).
"""
import os
import sys

import canonical

sys.path.insert(0, os.path.join(os.path.dirname(os.path.abspath(__file__)), '..', 'tools', 'questions'))
import document as by  # noqa: E402

NAMES = {'s': 'UniformScaleMap', 't': 'ScaleTranslateMap'}


def entry_line(name, value):
    letter, *rest = value
    if letter == 's':
        kind, shown = b'string', canonical.quoted(rest[0][2])
    elif letter == 'o':
        kind, shown = rest[0][2], rest[1][2].hex()
    else:
        kind = next(kind for kind, (other, _) in by.FIXED.items() if other == letter)
        numbers, = rest
        shown = {'b': lambda: str(numbers[0]).lower(), 'f': lambda: '%08x' % numbers[0]}.get(
            letter, lambda: ' '.join(map(str, numbers)))()
    return ' '.join(['entry', canonical.quoted(name), canonical.quoted(kind), shown]).rstrip()


def entry_lines(entries):
    latest = dict(entries)
    yield 'entries %d' % len(latest)
    for name in sorted(latest):
        yield entry_line(name, latest[name])


def as_read(grid, leaf):
    """A leaf's values, with zero wherever the file brings none."""
    stored = grid.leaves[leaf]
    return [stored.at(place) if stored.brought(place) else 0 for place in range(512)]


class Leaves:
    """What canonical.items tells of a cloud's leaves in the text with --read, each made when it is asked for."""

    def __init__(self, data):
        self.data, self.opened = data, {}

    def grid(self, name):
        try:
            file = by.File(self.data)
            return by.Opened(self.data, next(n for n, grid in enumerate(file.grids) if canonical.quoted(grid.name[2]) == name), file)
        except by.Refused:
            return None

    def get(self, name):
        of, _, leaf = name
        grid = self.opened[of] = self.opened[of] if of in self.opened else self.grid(of)
        if grid is None or leaf >= len(grid.leaves):
            return None
        line, = canonical.leaf_lines(leaf, grid.origins[leaf], as_read(grid, leaf), False)
        return line.partition(' ')[2]


def grid_lines(data, file, number, values, more, read):
    grid = by.Opened(data, number, file)
    case, doubles = grid.map
    yield 'map ' + NAMES[case]
    for at in range(0, len(doubles), 3):
        yield 'vector ' + ' '.join('%016x' % double for double in doubles[at:at + 3])
    if more:
        yield 'background %08x' % grid.background
    yield 'leaves %d' % len(grid.leaves)
    for leaf, origin in enumerate(grid.origins):
        yield from canonical.leaf_lines(leaf, origin, as_read(grid, leaf) if read else grid.fill(leaf, 512), values)
    yield 'records %d' % grid.records
    for *corner, level, value in grid.active():
        yield canonical.record_line(corner, level, value, more)


def lines(data, values=False, more=False, read=False):
    yield 'file %d' % len(data)
    try:
        file = by.File(data)
    except by.Refused as refused:
        yield 'refused %s' % refused
        return
    yield 'version %d' % file.version
    yield 'library %d %d' % file.library
    yield 'identity ' + canonical.quoted(file.identity[2])
    yield from entry_lines(file.entries)
    yield 'grids %d' % len(file.grids)
    for number, grid in sorted(enumerate(file.grids), key=lambda found: found[1].name[2]):
        yield 'grid ' + canonical.quoted(grid.name[2])
        yield 'type ' + canonical.quoted(grid.type[2])
        yield 'parent ' + canonical.quoted(grid.parent[2])
        yield 'positions %d %d %d' % (grid.grid, grid.block, grid.end)
        yield 'flags %d' % grid.flags
        yield from entry_lines(grid.entries)
        try:
            yield from list(grid_lines(data, file, number, values, more, read))
        except by.Refused as refused:
            yield 'refused %s' % refused


if __name__ == '__main__':
    with open(next(word for word in sys.argv[1:] if not word.startswith('--')), 'rb') as source:
        print('\n'.join(lines(source.read(), *('--' + word in sys.argv for word in ('values', 'more', 'read')))))
