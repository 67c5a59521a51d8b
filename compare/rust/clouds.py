#!/usr/bin/env python3
"""Compares what the Rust reads from clouds with what OpenVDB's library says is in them.

    clouds.py DUMP DESCRIBE FILE ...

Header, descriptors, metadata, transform, leaf values and active items are compared. Prints the differences, what
was compared, and how many differences are on no list; exits with 1 if there are such.
"""
import os
import subprocess
import sys

import listed
import rows  # and with it the directory above

import canonical

ABOVE = os.path.dirname(os.path.abspath(canonical.__file__))


def printed(*words):
    return subprocess.run(words, capture_output=True, check=True).stdout.decode()


def main(dump, describe, *paths):
    total, met, strange = {}, {}, 0
    for path in paths:
        rust = rows.dumped(dump, path)
        openvdb, read = (printed(sys.executable, os.path.join(ABOVE, 'by_openvdb.py'), describe, path, *side)
                         for side in ([], ['--read']))
        sides = canonical.items(rust), canonical.items(openvdb), canonical.items(read)
        version = int(sides[1].get((None, 'version'), 0))
        counts, found = canonical.differences(rust, openvdb)
        seen = {}
        for name, one, other in found:
            row = listed.row(name, one, other, version, *sides)
            strange += row is None
            seen[row] = seen.get(row, 0) + 1
            if row is None or seen[row] <= 2:
                thing = ' '.join(str(part) for part in name if part is not None)
                print('%s %s: Rust %s | OpenVDB %s (%s)' % (os.path.basename(path), thing, one, other, row or 'on no list'))
        for row, times in seen.items():
            if row and times > 2:
                print('%s: %s %d times more' % (os.path.basename(path), row, times - 2))
        for row, times in seen.items():
            met[row] = met.get(row, 0) + times
        for kind, count in counts.items():
            total[kind] = total.get(kind, 0) + count
    print('differences: ' + ', '.join('%s %d' % (row or 'on no list', times) for row, times in sorted(
        met.items(), key=lambda item: (item[0] is None, int((item[0] or 'D0')[1:])))))
    print('%d clouds; compared: %s; %d on no list' % (
        len(paths), ', '.join('%d %s' % (count, kind) for kind, count in sorted(total.items())), strange))
    return 1 if strange else 0


if __name__ == '__main__':
    sys.exit(main(*sys.argv[1:]))
