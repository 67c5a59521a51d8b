"""Questions to the layer of the transforms: document 01, section 3."""
import struct

from calls import answered, shown_map
from document import Reader, transform
from program import FAR

# Component j is (j + 1) / 7 with signs in turn, but for these.
SPECIAL = {4: -0.0, 19: float('inf'), 35: float('nan'), 41: float('-inf'), 50: 5e-324, 62: 1.7976931348623157e308}
MAPS = [(b'UniformScaleMap', 5), (b'ScaleMap', 5), (b'UniformScaleTranslateMap', 6), (b'ScaleTranslateMap', 6),
        (b'AffineMap', 0), (b'UnitaryMap', 0), (b'ScaleMapp', 0), (b'', 0)]


def ask_transform(q, at):
    def read():
        reader = Reader(q.file(), at)
        return shown_map(transform(reader)) + ' %d' % reader.at
    q.ask('Transform %d' % at, answered(read))


def ask(q):
    q.comment('== Transform AT: the four maps and other names, then cut')
    data, starts = b'', []
    for name, count in MAPS:
        starts.append(len(data))
        components = [SPECIAL.get(j, (j + 1) / 7 * (-1) ** j) for j in range(len(data) // 8, len(data) // 8 + 3 * count)]
        data += struct.pack('<I', len(name)) + name + struct.pack('<%dd' % len(components), *components)
    q.make(data)
    for at in starts + [len(data) - 3, FAR]:
        ask_transform(q, at)
    q.comment('the first without the last byte of its length, its name, its first double, its first vector, its last double; whole')
    for end in (3, 18, 26, 42, 138, 139):
        q.size(end)
        ask_transform(q, 0)
    q.comment('the fourth and the fifth without their last bytes')
    for number in (3, 4):
        q.size(starts[number + 1] - 1)
        ask_transform(q, starts[number])
