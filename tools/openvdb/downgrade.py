#!/usr/bin/env python3
"""Rewrites a version 224 cloud as OpenVDB wrote it in version 220, 221, 222 or 223.

    downgrade.py FILE VERSION NEWFILE

OpenVDB 10 reads these versions but does not write them. 222 and 223 have the layout of 224. In 220
and 221 the header has a packed byte, a grid has no flags, a node stores one value for each place
without a child, and a leaf block has origin, buffer byte and 512 values. Inactive places get the
values that OpenVDB gives them in the version 224 file. Where the grids have flag 0x1 the packed byte
is 1, and minus its length stands before each run, which is raw. All grids must be ones the reader
accepts, and alike in that flag. `describe` shows that OpenVDB reads the result as meant.
"""
import struct
import sys

import layout

NARROW = {layout.widen(h): h for h in range(65536)}


def stored(grid, values, child):
    kept = [value for p, value in enumerate(values) if not (child and child[p])]
    if grid.width == 2:
        run = struct.pack('<%dH' % len(kept), *(NARROW[value] for value in kept))
    else:
        run = struct.pack('<%dI' % len(kept), *kept)
    return struct.pack('<q', -len(run)) + run if grid.flags & 1 else run


def mask(bits):
    words = [sum(bit << n for n, bit in enumerate(bits[at:at + 64]))
             for at in range(0, len(bits), 64)]
    return struct.pack('<%dQ' % len(words), *words)


def text(data):
    return struct.pack('<I', len(data)) + data


def grid_parts(data, grid):
    """What stands before the blocks, and the blocks."""
    grid.open()
    start = grid.topology_at
    tiles = struct.unpack_from('<I', data, start + 8)[0]
    # Metadata, transform, buffer count, background, the two counts and the root tiles.
    head = data[grid.grid + 4:start + 16 + 17 * tiles]
    for node in grid.nodes:
        if node[0] in ('root', 'node4'):
            label, origin, child, value, (_, values, _) = node
            if label == 'root':
                head += struct.pack('<iii', *origin)
            head += mask(child) + mask(value) + stored(grid, values, child)
        elif node[0] == 'leaf':
            head += mask(grid.leaves[node[1]][1])
    blocks = b''
    for origin, active, (_, values, _) in grid.leaves:
        blocks += mask(active) + struct.pack('<iiiB', *origin, 1) + stored(grid, values, None)
    return head, blocks


def downgrade(data, version):
    if version >= 222:
        return data[:8] + struct.pack('<I', version) + data[12:]
    file = layout.File(data)
    # The header ends where the first descriptor starts, four bytes of length before its name.
    first = int(file.grids[0].lines[1].split()[1]) - 4
    packed = file.grids[0].flags & 1
    result = data[:8] + struct.pack('<I', version) + data[12:21] + bytes([packed]) + data[21:first]
    for grid in file.grids:
        head, blocks = grid_parts(data, grid)
        result += text(grid.name) + text(grid.type) + text(grid.parent)
        start = len(result) + 24
        block = start + len(head)
        result += struct.pack('<QQQ', start, block, block + len(blocks)) + head + blocks
    return result


with open(sys.argv[1], 'rb') as source:
    result = downgrade(source.read(), int(sys.argv[2]))
with open(sys.argv[3], 'wb') as target:
    target.write(result)
