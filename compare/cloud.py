"""Clouds made field by field: A and B of docs/DIFFERENCES.md, and what can be made of them. What A has in a field is taken from tools/case_a.py.

No reader is used here: what a reader takes apart must not have been put together by its own code.
"""
import os
import struct
import sys

sys.path.append(os.path.join(os.path.dirname(os.path.abspath(__file__)), '..', 'tools'))
import case_a  # noqa: E402
from case_a import FIELD, u32  # noqa: E402


def text(data):
    return u32(len(data)) + data


def mask(places, ones):
    return case_a.mask(places, *ones)


def corner(origin, place, side, step):
    """The lowest voxel of a place of a node."""
    return tuple(o + step * n for o, n in zip(origin, (place // side ** 2, place // side % side, place % side)))


def node(places, child, value=(), stored=b'\0'):
    """A node: masks, then the byte with all that follows it, or under 222 the values."""
    return mask(places, child) + mask(places, value) + stored


def old(count, **values):
    """The stored values of a node or leaf under 222: zeros but for the numbered ones."""
    found = bytearray(4 * count)
    for number, pattern in values.items():
        struct.pack_into('<I', found, 4 * int(number[1:]), pattern)
    return bytes(found)


def a_node(name):
    return b''.join(FIELD[name + part] for part in (', child mask', ', value mask', ', node byte'))


ONE = int.from_bytes(FIELD['block, stored value 0'], 'little')
A_LEAF = FIELD['leaf, value mask']


def a_root(origin=None, five=None, four=None):
    start = FIELD['root origin'] if origin is None else struct.pack('<iii', *origin)
    return start + (five or a_node('5-node')) + (four or a_node('4-node')) + A_LEAF


def b_root(five=((), {}), four=((), {})):
    """B's root, which is A's with other stored values; of 5-node and 4-node the value bits and stored values may be given."""
    return (FIELD['root origin'] + FIELD['5-node, child mask'] + mask(32768, five[0]) + old(32767, **five[1])
            + FIELD['4-node, child mask'] + mask(4096, four[0]) + old(4095, **four[1]) + A_LEAF)


def a_block(ones=None, stored=FIELD['block, node byte'] + FIELD['block, stored value 0']):
    return (FIELD['block, mask'] if ones is None else mask(512, ones)) + stored


def b_block(ones=None, origin=(-3848, 248, 4344), buffers=1):
    return a_block(ones, struct.pack('<iiiB', *origin, buffers) + old(512, n74=ONE))


class Grid:
    """A grid: its descriptor's texts, and the bytes at its grid position and at its block position. What is not given is A's."""

    def __init__(self, name=FIELD['name'], type=FIELD['type'], parent=b'', flags=2, entries=(), map=FIELD['map'],
                 doubles=bytes(120), buffers=1, background=0, tiles=b'', roots=None, root_count=None, block=None,
                 positions=None, gaps=(b'', b'')):
        self.name, self.type, self.parent, self.positions = name, type, parent, positions or {}
        self.flags, self.entries, self.map, self.doubles = flags, entries, map, doubles
        self.buffers, self.background, self.tiles = buffers, background, tiles
        self.roots, self.root_count, self.block, self.gaps = roots, root_count, block, gaps

    def bytes(self, at, version):
        """The grid whose descriptor stands at a position."""
        new = version >= 222
        roots = [a_root() if new else b_root()] if self.roots is None else self.roots
        blocks = (a_block() if new else b_block()) if self.block is None else self.block
        count = len(roots) if self.root_count is None else self.root_count
        head = text(self.name) + text(self.type) + text(self.parent)
        tree = ((u32(self.flags) if new else b'') + metadata(self.entries) + text(self.map) + self.doubles
                + u32(self.buffers) + u32(self.background) + u32(len(self.tiles) // 17) + u32(count) + self.tiles
                + b''.join(roots) + self.gaps[0])
        blocks += self.gaps[1]
        grid = at + len(head) + 24
        block = grid + len(tree)
        asked = self.positions.get
        head += struct.pack('<QQQ', asked('grid', grid), asked('block', block), asked('end', block + len(blocks)))
        return head + tree + blocks


def metadata(entries):
    """Entries are name, kind and value; the length field is the value's, where none is given."""
    return u32(len(entries)) + b''.join(
        text(name) + text(kind) + u32(length[0] if length else len(value)) + value
        for name, kind, value, *length in entries)


def cloud(version=224, *grids, magic=FIELD['magic'], offsets=1, packed=0, entries=(), count=None,
          library=(10, 1), identity=bytes(36)):
    data = magic + struct.pack('<IIIB', version, *library, offsets) + (bytes([packed]) if 220 <= version <= 221 else b'')
    data += identity + metadata(entries) + u32(len(grids) if count is None else count)
    for grid in grids:
        data += grid.bytes(len(data), version)
    return data


def a(file=None, **grid):
    return cloud(224, Grid(**grid), **file or {})


def b(file=None, **grid):
    return cloud(220, Grid(**grid), **file or {})


def number(n):
    """What stands before a run, where the grid has a packing flag: minus the number of its bytes where they are stored raw."""
    return struct.pack('<q', n)


def a_numbered(flags, numbers=(0, 0, -4), child=4095, tiles=((), ()), value=u32(ONE), leaf=b'\0', **grid):
    """A with numbers in its 5-node, in its 4-node and before its value, as OpenVDB writes it with flags 3: those of the nodes stand before
    empty runs. Without a number where that is None. Places of both nodes may be tiles, with the leaf's value; `leaf` is its node byte with all that
    stands before the number."""
    fronts = [byte + (b'' if n is None else number(n)) for byte, n in zip((b'\0', b'\0', leaf), numbers)]
    five, four = (front + value * len(active) for front, active in zip(fronts, tiles))
    root = a_root(five=node(32768, [1057], tiles[0], five), four=node(4096, [child], tiles[1], four))
    return a(flags=flags, roots=[root], block=a_block(stored=fronts[2] + value), **grid)


def b_numbered(packed):
    """B with numbers: none of its runs is empty."""
    five, four, leaf = (number(-4 * count) for count in (32767, 4095, 512))
    root = FIELD['root origin'] + FIELD['5-node, child mask'] + mask(32768, ()) + five + old(32767)
    root += FIELD['4-node, child mask'] + mask(4096, ()) + four + old(4095) + A_LEAF
    return b({'packed': packed}, roots=[root], block=a_block(None, struct.pack('<iiiB', -3848, 248, 4344, 1) + leaf + old(512, n74=ONE)))


def crowded(length, step=32, middle=False):
    """64 grids whose names stand inside one another: each has `length` bytes and starts `step` bytes behind the one before. From the
    front they are the same until near their ends, or with `middle` until near their middle; at the end all but 32 bytes of a step are
    the same. `length` + 4 is a multiple of `step`."""
    first = len(cloud(count=64))
    behind = first + 4 + length
    unit = u32(length).ljust(step, b'n')
    grid = behind + 64 * step
    data = bytearray(cloud(count=64) + unit * ((4 + length) // step))
    for number in range(64):
        data += (text(b'') + text(b'') + struct.pack('<QQQ', grid, grid, first + (number + 1) * step)).ljust(step, b'n')
    if middle:
        data[first + (4 + length) // step // 2 * step + step // 2] = ord('m')
    return bytes(data) + bytes(8)


def shared(entries):
    """64 grids whose descriptors all name one grid position, so that one metadata of so many entries is read for each of them."""
    first, row = len(cloud(count=64)), 4 + 2 + 4 + 4 + 24
    grid = first + 64 * row
    data = bytearray(cloud(count=64))
    for number in range(64):
        data += text(b'%02d' % number) + text(b'') + text(b'') + struct.pack('<QQQ', grid, grid, first + (number + 1) * row)
    return bytes(data) + u32(2) + u32(entries) + (text(b'n') + text(b'bool') + u32(1) + b'\1') * entries


def hollow(nodes):
    """A with so many 4-nodes of 4,096 leaves each, of which only the last leaf has an active voxel."""
    four = node(4096, range(4096))
    empty, last = mask(512, ()), mask(512, [511])
    leaves = 4096 * nodes
    root = FIELD['root origin'] + node(32768, range(nodes))
    masks = [empty] * (leaves - 1) + [last]
    root += b''.join(four + b''.join(masks[4096 * n:4096 * (n + 1)]) for n in range(nodes))
    return a(roots=[root], block=(empty + b'\0') * (leaves - 1) + last + b'\0' + u32(ONE))


def put(data, at, new):
    return data[:at] + new + data[at + len(new):]


A, B = case_a.A, b()
assert a() == A
END = len(A)
