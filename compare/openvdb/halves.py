#!/usr/bin/env python3
"""What our reader and OpenVDB's library read where a type's ending and the half entry say otherwise than the file's writer had them say.

    halves.py DUMP DESCRIBE ROWS FILE ..     the last two programs are built by tools/openvdb; FILE was written by OpenVDB's library

OpenVDB writes both, or neither. Here the float grids of each file get every combination below in turn, and keep their values as they are. Where
the combination means the width that they were written with, our reader must read what OpenVDB's library reads in the unchanged file. ROWS
says what OpenVDB's library reads in the changed one: the same, where the width that OPENVDB has for the combination is the written one, and else
not (docs/DIFFERENCES.md, section 5). Exits with 1 where anything is otherwise.
"""
import os
import struct
import subprocess
import sys
import tempfile

HERE = os.path.dirname(os.path.abspath(__file__))
sys.path[:0] = [os.path.dirname(HERE), os.path.join(HERE, '..', '..', 'tools', 'openvdb')]
import canonical  # noqa: E402
import layout  # noqa: E402
import rows  # noqa: E402

PLAIN, ENDING, NAME = b'Tree_float_5_4_3', b'_HalfFloat', b'is_saved_as_half_float'
ENTRIES = [('none', b''), ('true', (b'bool', b'\1')), ('false', (b'bool', b'\0')),
           ('int32 1', (b'int32', rows.u32(1))), ('int32 0', (b'int32', rows.u32(0))), ('string', (b'string', b'no'))]
# The widths with these entries: document 02, N4, then what OpenVDB's library does.
WIDTHS = {b'': [4, 2, 4, 4, 4, 4], ENDING: [2, 2, 4, 2, 2, 2]}
OPENVDB = {b'': [4, 2, 4, 2, 4, 2], ENDING: [4, 2, 4, 2, 4, 2]}
CONTENT = {'answer', 'map', 'vector', 'background', 'leaves', 'leaf', 'records', 'record'}


def changed(data, ending, entry):
    """The file with this ending and this half entry in its float grids, and its positions moved accordingly."""
    puts, positions = [], []  # where, how many bytes go, what comes
    for grid in layout.File(data).grids:
        name, length = map(int, grid.lines[1].split()[1:3])
        at = name + length
        positions.append((at + 4 + len(grid.type) + 4 + len(grid.parent), (grid.grid, grid.block, grid.end)))
        if grid.type not in (PLAIN, PLAIN + ENDING):
            continue
        puts.append((at, 4 + len(grid.type), rows.text(PLAIN + ending)))
        reader = layout.Reader(data)
        reader.at = grid.grid + 4
        start, entries = layout.metadata(reader)
        found = [(at - 12 - len(name) - len(kind), 12 + len(name) + len(kind) + length)
                 for name, kind, at, length, _ in entries if name == NAME]
        puts.append((start, 4, rows.u32(len(entries) - len(found) + bool(entry))))
        puts += [(at, length, b'') for at, length in found]
        puts.append((grid.follows, 0, rows.text(NAME) + rows.text(entry[0]) + rows.text(entry[1]) if entry else b''))

    def moved(position):
        return position + sum(len(new) - length for at, length, new in puts if at < position)
    puts += [(at, 24, struct.pack('<QQQ', *map(moved, three))) for at, three in positions]
    for at, length, new in sorted(puts, reverse=True):
        data = data[:at] + new + data[at + length:]
    return data


def printed(*words):
    return subprocess.run(words, capture_output=True, check=True).stdout.decode()


def content(text):
    """What a text tells of the grids' contents."""
    return {name: told for name, told in canonical.items(text).items() if name[0] is not None and name[1] in CONTENT}


def ours(dump, data):
    with tempfile.NamedTemporaryFile(suffix='.vdb') as file:
        file.write(data)
        file.flush()
        return content(printed(dump, '--more', file.name))


def theirs(program, data):
    """What OpenVDB's library says, entries apart."""
    return [line for line in rows.ask(program, data, len(data)) if not line.startswith('entry ')]


def main(dump, describe, program, *paths):
    wrong = ran = 0
    for path in paths:
        with open(path, 'rb') as file:
            data = file.read()
        by_openvdb = os.path.join(HERE, '..', 'by_openvdb.py')
        expected = content(printed(sys.executable, by_openvdb, describe, path, '--more'))
        unchanged = theirs(program, data)
        widths = {grid.width for grid in layout.File(data).grids if grid.type in (PLAIN, PLAIN + ENDING)}
        assert len(widths) == 1 and expected, path
        written = widths.pop()
        for ending in WIDTHS:
            for number, (name, entry) in enumerate(ENTRIES):
                new = changed(data, ending, entry)
                found = []
                if WIDTHS[ending][number] == written and ours(dump, new) != expected:
                    found.append('ours is not what OpenVDB reads in the unchanged file')
                if (theirs(program, new) == unchanged) != (OPENVDB[ending][number] == written):
                    found.append('OpenVDB does not read it at %d bytes' % OPENVDB[ending][number])
                ran, wrong = ran + 1, wrong + len(found)
                for text in found:
                    print('%s, type %s, entry %s: %s' % (os.path.basename(path), (PLAIN + ending).decode(), name, text))
    print('%d files made of %d; %d otherwise' % (ran, len(paths), wrong))
    return 1 if wrong else 0


if __name__ == '__main__':
    sys.exit(main(*sys.argv[1:]))
