#!/usr/bin/env python3
"""Compares our reader with another one over clouds.

    compare.py DUMP document FILE ..               with document 01, by the Python reader: every line must be equal
    compare.py DUMP openvdb DESCRIBE FILE ..       with OpenVDB's library: every line must be equal
    compare.py DUMP rust RUST FILE ..              with the Rust: apart from the differences that rust/listed.py knows
    compare.py DUMP streams RUST DESCRIBE FILE ..  with the Rust, line by line as they come: apart from D38

DUMP, DESCRIBE and RUST are the three programs. The walk gets an odd number of slots. D38 is a leaf that the Rust has with
zero wherever the file brings no value; how it then is, the Python reader says, or OpenVDB where lines are compared as they
come. Prints what is otherwise and what was compared; exits with 1 if anything is on no list.
"""
import collections
import itertools
import os
import re
import subprocess
import sys

HERE = os.path.dirname(os.path.abspath(__file__))
ABOVE = os.path.dirname(HERE)
sys.path[:0] = [ABOVE, os.path.join(ABOVE, 'rust')]
import by_document  # noqa: E402
import by_openvdb  # noqa: E402
import canonical  # noqa: E402
import listed  # noqa: E402
import rows  # noqa: E402


def printed(*words):
    return subprocess.run(words, capture_output=True, check=True).stdout.decode()


def ours(dump, paths, *options):
    """The text of each file; one run of the dumper is given several of them."""
    for at in range(0, len(paths), 20):
        text = printed(dump, '--slots', '77', *options, *paths[at:at + 20])
        yield from re.split(r'^(?=file )', text, flags=re.MULTILINE)[1:]


def document_text(path):
    with open(path, 'rb') as source:
        return '\n'.join(by_document.lines(source.read(), more=True)) + '\n'


def openvdb_text(describe, path):
    return printed(sys.executable, os.path.join(ABOVE, 'by_openvdb.py'), describe, path, '--more')


def as_read(path):
    """The leaves with zero wherever the file brings no value."""
    with open(path, 'rb') as source:
        return by_document.Leaves(source.read())


class Counts:
    """How many things of each kind were compared, and which refusals were met."""

    def __init__(self):
        self.kinds, self.refused, self.strange, self.rows, self.files, self.dropped = {}, {}, 0, {}, 0, 0

    def add_kinds(self, compared):
        for kind, count in compared.items():
            self.kinds[kind] = self.kinds.get(kind, 0) + count

    def add_row(self, row):
        self.rows[row] = self.rows.get(row, 0) + 1

    def add(self, text, compared):
        self.files += 1
        self.add_kinds(compared)
        for number in re.findall(r'^refused (\d+)', text, flags=re.MULTILINE):
            self.refused[int(number)] = self.refused.get(int(number), 0) + 1

    def shown(self):
        def listed_by(found, key=None):
            return ', '.join('%d %s' % (count, kind) for kind, count in sorted(found.items(), key=key)) or 'none'
        lines = ['%d files; compared: %s' % (self.files, listed_by(self.kinds)),
                 'refusals: ' + (', '.join('%d times %d' % (count, number) for number, count in sorted(self.refused.items())) or 'none')]
        if self.dropped:
            lines.append('D37: %d grids whose values are not compared' % self.dropped)
        if self.rows:
            lines.append('listed differences: ' + listed_by(self.rows, key=lambda item: int(item[0][1:])))
        return '\n'.join(lines + ['%d on no list' % self.strange])


def kinds(words):
    """How many lines of each kind there are, from how many there are with each first word."""
    found = collections.Counter()
    for word, count in words.items():
        if word not in ('file', 'refused'):
            found[canonical.kind((None, word))] += count
    return found


def first_words(text):
    return collections.Counter(re.findall(r'^\w+', text, flags=re.MULTILINE))


def exactly(dump, paths, other, counts):
    for path, text in zip(paths, ours(dump, paths, '--more'), strict=True):
        theirs = other(path)
        counts.add(text, kinds(first_words(text)))
        if text != theirs:
            counts.strange += 1
            print('%s: ours | other: %s' % (os.path.basename(path), canonical.first_difference(text, theirs)))


def without_common(one, other):
    """Both texts without what is equal in both, header or whole grids, and of the other grids the records where these are; and all that: a large
    text is long in being taken apart."""
    def name(part):
        return part.partition('\n')[0]
    parts = [re.split(r'^(?=grid )', text, flags=re.MULTILINE) for text in (one, other)]
    common = set(parts[0]) & set(parts[1])
    rest = [[part for part in side if part not in common] for side in parts]
    records = [{name(part): part[part.index('\nrecords ') + 1:] for part in side if '\nrecords ' in part} for side in rest]
    equal = {grid: found for grid, found in records[0].items() if records[1].get(grid) == found}
    return *(''.join(part.removesuffix(equal.get(name(part), '')) for part in side) for side in rest), ''.join([*common, *equal.values()])


def apart_from_listed(dump, rust, paths, counts):
    for path, text in zip(paths, ours(dump, paths), strict=True):
        theirs = rows.dumped(rust, path, memory=12 << 30)
        version = int((re.search(r'^version (\d+)', text, flags=re.MULTILINE) or [0, 0])[1])
        *rest, common = without_common(theirs, text)
        sides = [canonical.items(side) for side in rest]
        without = listed.dropped(sides[1])
        compared, found = canonical.differences(*rest, without)
        read = as_read(path)
        counts.dropped += len(without)
        counts.add(text, compared)
        counts.add_kinds(kinds(first_words(common)))
        for name, one, other in found:
            row = listed.row(name, one, other, version, *sides, read)
            if row:
                counts.add_row(row)
            else:
                counts.strange += 1
                print('%s %s: Rust %s | ours %s' % (os.path.basename(path), ' '.join(map(str, name)), one, other))


def line_by_line(dump, rust, describe, paths, counts):
    """For clouds whose texts are too large to be kept."""
    for path in paths:
        sides = [subprocess.Popen(words, stdout=subprocess.PIPE) for words in ([dump, '--slots', '77', path], [rust, path])]
        words, grid, leaf, read, difference = collections.Counter(), None, 0, by_openvdb.Leaves(describe, path), None
        for pair in itertools.zip_longest(*(side.stdout for side in sides), fillvalue=b'nothing'):
            word = pair[0].split(None, 1)[0].decode()
            words[word] += 1
            if word == 'grid':
                grid, leaf = pair[0][len('grid '):-1].decode(), -1
            leaf += word == 'leaf'
            if pair[0] == pair[1] or difference:
                continue
            if word == 'leaf' and pair[1].decode() == 'leaf %s\n' % read.get((grid, word, leaf)):
                counts.add_row('D38')
            else:
                difference = canonical.first_difference(*(line.decode() for line in pair))
        counts.add('', kinds(words))
        if difference or any(side.wait() for side in sides):
            counts.strange += 1
            print('%s: ours | Rust: %s' % (os.path.basename(path), difference or 'a dumper failed'))


def main(dump, other, *words):
    counts = Counts()
    if other == 'document':
        exactly(dump, words, document_text, counts)
    elif other == 'openvdb':
        describe, *paths = words
        exactly(dump, paths, lambda path: openvdb_text(describe, path), counts)
    elif other == 'streams':
        rust, describe, *paths = words
        line_by_line(dump, rust, describe, paths, counts)
    else:
        rust, *paths = words
        apart_from_listed(dump, rust, paths, counts)
    print(counts.shown())
    return 1 if counts.strange else 0


if __name__ == '__main__':
    sys.exit(main(*sys.argv[1:]))
