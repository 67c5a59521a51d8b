#!/usr/bin/env python3
"""Prints a cloud in the text of README.md, as OpenVDB's own library has it.

    by_openvdb.py DESCRIBE FILE [--values] [--more] [--read]

DESCRIBE is the program that tools/openvdb builds. With --read a leaf's places hold zero wherever the file
brings no value for them, as in the Rust (D38).
"""
import re
import subprocess
import sys

import canonical


def described(describe, path, *words):
    done = subprocess.run([describe, path, *words], capture_output=True, check=True)
    return done.stdout.decode('latin-1').splitlines()


def leaves(lines):
    """For each grid's number its leaves: origin and values."""
    found, grid = {}, None
    for line in lines:
        words = line.split()
        if words[0] == 'grid':
            grid = found.setdefault(int(words[1]), [])
        elif words[0] == 'leaf':
            grid.append(([int(word) for word in words[2:]], []))
        elif words[0] != 'refused':
            grid[-1][1].extend(int(word, 16) for word in words)
    return found


class Leaves:
    """What canonical.items tells of a cloud's leaves in the text with --read, for clouds of any size."""

    def __init__(self, describe, path):
        self.found, grid = {}, None
        for line in described(describe, path, 'digests'):
            word, _, rest = line.partition(' ')
            if word == 'name':
                grid = rest.split(' ', 2)[2]
            elif word == 'leaf':
                self.found[grid, 'leaf', int(rest.split()[0])] = rest

    def get(self, name):
        return self.found.get(name)


def entry(line):
    """Without the start and the length of a text or of raw bytes; sorted by its name's bytes."""
    name, kind, value = re.fullmatch(r'entry ("(?:[^"\\]|\\.)*") ("(?:[^"\\]|\\.)*") ?(.*)', line).groups()
    if kind not in ('"bool"', '"int32"', '"int64"', '"float"', '"vec3i"'):
        value = value.split(' ', 2)[2] if value.count(' ') > 1 else ''
    return plain(name), ' '.join(['entry', name, kind, value]).rstrip()


def plain(name):
    """The bytes of a name in quotes, as text that sorts alike."""
    return re.sub(r'\\(x..|.)', lambda m: m[1] if len(m[1]) == 1 else chr(int(m[1][1:], 16)), name[1:-1])


def rewritten(lines, filled, values, more):
    """The lines of a part, of the file or of a grid. Where something is refused, what the text of README.md does not
    have before a refusal is left out: the header, or a grid's map."""
    entries, records, refused = [], False, lines[-1].startswith('refused')
    for line in lines:
        word, _, rest = line.partition(' ')
        if refused and (word in ('map', 'vector', 'row') or lines[0].startswith('file') and word not in ('file', 'refused')):
            continue
        if entries and word != 'entry':
            yield from (line for _, line in sorted(entries))
            entries = []
        if records:
            *corner, level, pattern = line.split()
            yield canonical.record_line([int(number) for number in corner], int(level), int(pattern, 16), more)
        elif word == 'file':
            yield 'file ' + rest.split()[-1]
        elif word in ('version', 'library', 'grids', 'positions', 'flags', 'vector', 'refused') or more and word == 'background':
            yield line
        elif word in ('identity', 'type', 'parent'):
            yield word + ' ' + rest.split(' ', 2)[2]
        elif word == 'name':
            yield 'grid ' + rest.split(' ', 2)[2]
        elif word == 'metadata':
            yield 'entries ' + rest.split()[-1]
        elif word == 'entry':
            entries.append(entry(line))
        elif word == 'map':
            if rest[1:-1] in canonical.MAPS:
                yield 'map ' + canonical.MAPS[rest[1:-1]]
        elif word == 'leaves':
            yield line
            for number, (origin, patterns) in enumerate(filled):
                yield from canonical.leaf_lines(number, origin, patterns, values)
        elif word == 'records':
            yield line
            records = True
    yield from (line for _, line in sorted(entries))


def text(lines, filled, values=False, more=False):
    """The text, from what DESCRIBE prints of a file and of its leaves."""
    parts = [[]]
    for line in lines:
        if line.startswith('grid '):
            parts.append([])
        parts[-1].append(line)
    found = leaves(filled)
    head, *grids = ['\n'.join(rewritten(part, found.get(number - 1, []), values, more)) for number, part in enumerate(parts)]
    grids.sort(key=lambda text: plain(text.splitlines()[0].partition(' ')[2]))
    return '\n'.join([head, *grids]) + '\n'


def main(arguments):
    side = 'read' if '--read' in arguments else 'values'
    describe, path = [word for word in arguments if not word.startswith('--')]
    sys.stdout.write(text(described(describe, path), described(describe, path, side),
                          '--values' in arguments, '--more' in arguments))


if __name__ == '__main__':
    main(sys.argv[1:])
