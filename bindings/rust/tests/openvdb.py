"""What OpenVDB says of each grid of crates/questions/data, for the tests of this folder: a line a grid.

    python3 openvdb.py DESCRIBE FILE.. > openvdb.txt

DESCRIBE is the program of tools/openvdb, which asks OpenVDB's library. A line has the file, the grid's number, and either `refused` and a check, or
the number of leaves, of records, a digest of the records (FNV-1a of 64 bits over the lines of the listing, `records N` first), one of the leaves
(over the lines of `describe FILE values`, origins and all values), and the box around the records. A file that does not open, or has no grid, has one
line without a grid's number.
"""
import os
import re
import subprocess
import sys


def digest(text):
    d = 0xcbf29ce484222325
    for byte in text.encode():
        d = (d ^ byte) * 0x100000001b3 % 2**64
    return d


def box(records):
    if not records:
        return 'empty'
    rows = [[int(word) for word in record.split()[:4]] for record in records]
    low = [min(row[axis] for row in rows) for axis in range(3)]
    high = [max(row[axis] + [1, 8, 128][row[3]] - 1 for row in rows) for axis in range(3)]
    return ' '.join(str(n) for n in low + high)


def described(*words):
    return subprocess.run([sys.argv[1], *words], check=True, capture_output=True, text=True).stdout.splitlines()


def starts(lines):
    """Where the grids' lines start, and where the last one's end."""
    return [i for i, line in enumerate(lines) if re.fullmatch(r'grid \d+', line)] + [len(lines)]


def grid_line(lines, values):
    refused = [line for line in lines if line.startswith('refused ')]
    if refused:
        return refused[0]
    leaves = next(line for line in lines if line.startswith('leaves '))
    first = next(i for i, line in enumerate(lines) if line.startswith('records '))
    listing = ''.join(line + '\n' for line in lines[first:])
    return '%s %s %016x %016x %s' % (leaves, lines[first], digest(listing), digest(''.join(line + '\n' for line in values)), box(lines[first + 1:]))


for path in sys.argv[2:]:
    name, lines, values = os.path.basename(path), described(path), described(path, 'values')
    at, beside = starts(lines), starts(values)
    assert len(at) == len(beside), name
    if len(at) == 1:
        print(name, lines[-1])
    for a, b, c, d in zip(at, at[1:], beside, beside[1:]):
        print(name, lines[a].split()[1], grid_line(lines[a + 1:b], values[c + 1:d]))
