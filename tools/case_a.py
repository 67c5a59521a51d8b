#!/usr/bin/env python3
"""Case A, a cloud of one voxel, built field by field.

    case_a.py            prints the table of its fields that docs/FORMAT.md has
    case_a.py --bytes    writes its 9,637 bytes to standard output
    case_a.py --check    exit status 1 if docs/FORMAT.md has another table, or crates/listing/stdin other bytes

Fields that the case leaves free are zero here, but for the library numbers. Whatever makes a cloud of case A takes its fields from here: tools/questions,
tools/openvdb/rows.py, compare/cloud.py. No reader does.
"""
import pathlib
import struct
import sys

ROOT = pathlib.Path(__file__).resolve().parent.parent
PAGE, STORED = ROOT / 'docs' / 'FORMAT.md', ROOT / 'crates' / 'listing' / 'stdin'
GRID, BLOCK, LENGTH = 118, 9568, 9637


def u32(n):
    return struct.pack('<I', n)


def u64(n):
    return struct.pack('<Q', n)


def mask(places, *ones):
    return sum(1 << place for place in ones).to_bytes(places // 8, 'little')


def comma(n):
    return format(n, ',')


def fields():
    """Name, bytes, and what the table says of them."""
    out = []

    def field(name, data, words=None):
        out.append((name, data, data.hex(' ') if words is None else words))

    def string(name, text):
        field(name + ', length', u32(len(text)), str(len(text)))
        if text:
            field(name, text, '`%s`' % text.decode())

    def node(name, places, child):
        at = sum(len(data) for _, data, _ in out)
        bits = mask(places, child)
        byte = next(i for i, b in enumerate(bits) if b)
        field(name + ', child mask', bits, 'bit %s: byte %s is %02x, all others 0' % (comma(child), comma(at + byte), bits[byte]))
        field(name + ', value mask', mask(places), 'all 0')
        field(name + ', node byte', b'\0', '0')

    def leaf(name):
        at = sum(len(data) for _, data, _ in out)
        field(name, mask(512, 74), 'bit 74: byte %s is 04, all others 0' % comma(at + 74 // 8))

    field('magic', bytes.fromhex('2042445600000000'))
    field('version', u32(224), '224')
    field('library number, major', u32(10), 'free')
    field('library number, minor', u32(1), 'free')
    field('offsets byte', b'\1', '1')
    field('identity', bytes(36), 'free; zeros here, where OpenVDB reads only the text of a UUID')
    field('metadata of the file, count', u32(0), '0')
    field('grid count', u32(1), '1')
    string('name', b'd')
    string('type', b'Tree_float_5_4_3')
    string('parent', b'')
    field('grid position', u64(GRID), '118')
    field('block position', u64(BLOCK), '9,568')
    field('end position', u64(LENGTH), '9,637')
    field('flags', u32(2), '2')
    field('metadata of the grid, count', u32(0), '0')
    string('map', b'ScaleMap')
    for name in ('scale values', 'voxel size', 'inverse of the scale values', 'inverse of their squares', 'inverse of twice the scale'):
        field(name, bytes(24), 'free')
    field('buffer count', u32(1), '1')
    field('background', u32(0), 'free')
    field('tile count', u32(0), '0')
    field('root count', u32(1), '1')
    field('root origin', struct.pack('<iii', -4096, 0, 4096), '(-4096, 0, 4096)')
    node('5-node', 32768, 1057)
    node('4-node', 4096, 4095)
    leaf('leaf, value mask')
    leaf('block, mask')
    field('block, node byte', b'\0', '0')
    field('block, stored value 0', u32(0x3f800000), '0x3f800000')
    return out


def placed():
    """Where each field starts, by its name."""
    found, at = {}, 0
    for name, data, _ in fields():
        assert name not in found
        found[name] = at
        at += len(data)
    return found


# Each field's bytes and its start by its name, and all of them.
FIELD, AT = {name: data for name, data, _ in fields()}, placed()
A = b''.join(FIELD.values())


def main(arguments):
    rows, at, positions = ['| Position | Bytes | Field | Content |', '|---|---|---|---|'], 0, {}
    for name, data, words in fields():
        rows.append('| %s | %s | %s | %s |' % (comma(at), comma(len(data)), name, words))
        positions[name], at = at, at + len(data)
    assert at == LENGTH and positions['flags'] == GRID and positions['block, mask'] == BLOCK
    table = '\n'.join(rows) + '\n'
    if arguments == ['--bytes']:
        sys.stdout.buffer.write(A)
    elif arguments == ['--check']:
        if '\n\n' + table + '\n' not in PAGE.read_text(encoding='utf-8'):
            print('docs/FORMAT.md has another table', file=sys.stderr)
            return 1
        if STORED.read_bytes() != A:
            print('crates/listing/stdin has other bytes', file=sys.stderr)
            return 1
    elif arguments:
        print(__doc__.strip(), file=sys.stderr)
        return 2
    else:
        print(table, end='')
    return 0


if __name__ == '__main__':
    sys.exit(main(sys.argv[1:]))
