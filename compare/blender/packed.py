#!/usr/bin/env python3
"""Compares what the Rust unpacks with what it reads unpacked.

    packed.py DUMP DIRECTORY

DIRECTORY has what bake.py baked. Two settings that differ in the compression alone hold the same values, so that the float
grids must have the same leaves and records in both. Prints what is otherwise; exits with 1 if there is such a thing.
"""
import glob
import os
import sys

ABOVE = os.path.dirname(os.path.dirname(os.path.abspath(__file__)))
sys.path[:0] = [ABOVE, os.path.join(ABOVE, 'rust')]
import canonical  # noqa: E402
import rows  # noqa: E402


def floats(text):
    """Leaves and records of the float grids, and what stands in their place."""
    items = canonical.items(text)
    return {name: value for name, value in items.items() if name[1] in ('answer', 'leaves', 'leaf', 'records', 'record')
            and items[name[0], 'type'].startswith('"Tree_float_5_4_3')}


def main(dump, directory):
    files = things = strange = 0
    for path in sorted(glob.glob(os.path.join(directory, '*-BLOSC-*.vdb'))):
        packed, plain = (floats(rows.dumped(dump, one)) for one in (path, path.replace('-BLOSC-', '-NONE-')))
        files, things = files + 1, things + len(plain)
        for name in sorted(packed | plain, key=str):
            pair = packed.get(name, 'absent'), plain.get(name, 'absent')
            if pair[0] != pair[1]:
                strange += 1
                print('%s %s: packed %s | unpacked %s' % (os.path.basename(path), ' '.join(map(str, name)), *pair))
    print('%d files; compared: %d leaves and records; %d otherwise' % (files, things, strange))
    return 1 if strange else 0


if __name__ == '__main__':
    sys.exit(main(*sys.argv[1:]))
