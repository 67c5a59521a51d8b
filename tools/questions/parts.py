"""Questions to the layers below the calls: fields, masks, halves, stored values, coordinates."""
import struct

from calls import double, numbers, span
from document import Coding, Reader, Refused, Stored, moved, widened
from program import FAR, summed


# Section 1: every kind of field at a position, by Python's struct module

def field(size, form):
    """What is shown of a field of this size."""
    return lambda data, at: form(data[at:at + size]) if at + size <= len(data) else ' nothing'


def unpacked(form):
    return field(struct.calcsize('<' + form), lambda data: numbers(*struct.unpack('<' + form, data)))


def patterns(count):
    return field(8 * count, lambda data: ''.join(map(double, struct.unpack('<%dQ' % count, data))))


def string(data, at):
    length, = struct.unpack_from('<I', data, at) if at + 4 <= len(data) else (FAR,)
    return span((at + 4, length, data[at + 4:at + 4 + length])) if at + 4 + length <= len(data) else ' nothing'


KINDS = [unpacked(form) for form in 'BIQiq'] + [patterns(1), unpacked('iii'), patterns(3), string]
DATA = (struct.pack('<BIQ', 0xa5, 0xdeadbeef, 0x0123456789abcdef)
        + struct.pack('<iiqq', -2147483648, 2147483647, -9223372036854775808, -2)
        + struct.pack('<iii', -4096, 0, 2147479552)
        + struct.pack('<dddQ', 1.5, -0.0, float('inf'), 0x7ff0000000000001)
        + struct.pack('<I', 5) + b'hello' + struct.pack('<I', 6) + b'short')


def fields(q):
    q.comment('== Fields AT: u8, u32, u64, i32, i64, double, three i32, three doubles, string')
    q.make(DATA)
    for at in [0, 1, 5, 13, 17, 21, 29, 37, 49] + list(range(73, 102)) + [FAR - 7, FAR]:
        q.ask('Fields %d' % at, ''.join(kind(DATA, at) for kind in KINDS))


# Section 4: bit p of a mask is bit p mod 8 of byte p / 8

def bits(q, at, size):
    return [q.data[at + p // 8] >> p % 8 & 1 for p in range(8 * size)]


def masks(q):
    q.comment('== masks: ones with gaps of some words, and from 6000 on zeros but for the last bytes of three masks')
    q.new(16384)
    for k in range(150):
        q.random(40 * k + 27, 13, 11 * k)
    for at, byte in ((6511, 128), (7111, 128), (8311, 192)):
        q.put(at, bytes([byte]))
    q.comment('Mask AT BYTES PLACE: ones, zeros, ones below, zeros below, next one, bit')
    for at, size in ((5863, 64), (5463, 512), (1863, 4096), (6000, 512), (7200, 512)):
        mask = bits(q, at, size)
        for p in (0, 63, 64, 65, 127, 128, 8 * size - 1, 8 * size):
            following = next((' %d' % place for place in range(p, 8 * size) if mask[place]), ' nothing')
            q.ask('Mask %d %d %d' % (at, size, p), numbers(sum(mask), mask.count(0), sum(mask[:p]), mask[:p].count(0))
                  + following + numbers(*mask[p:p + 1]))
    q.comment('Double AT AT BYTES: whether two masks overlap, whether they are equal')
    for a, b, size in ((3, 43, 64), (3, 3, 4096), (6000, 6600, 512), (6000, 7200, 512), (6000, 7800, 512), (6600, 6600, 512),
                       (7200, 7200, 512)):
        one, other = bits(q, a, size), bits(q, b, size)
        q.ask('Double %d %d %d' % (a, b, size), numbers(any(x and y for x, y in zip(one, other)), one == other))


# Section 5: every half but the NaNs is widened by Python's struct module

def wide(half):
    if half % 32768 > 0x7c00:
        return (half & 0x8000) << 16 | 0x7f800000 | (half & 0x03ff) << 13 | 1 << 22
    return struct.unpack('<I', struct.pack('<f', *struct.unpack('<e', struct.pack('<H', half))))[0]


def halves(q):
    assert all(wide(half) == widened(half) for half in range(65536))
    q.comment('== Halves FROM TO: the marked ones of section 9, then of either sign subnormal, normal, infinite, not a number')
    for start, end in [(half, half + 1) for half in (0x0001, 0x03ff, 0x0400, 0x7c01, 0x8000)] + [
            (sign + a, sign + b) for sign in (0, 32768) for a, b in ((0, 1024), (1024, 31744), (31744, 31745), (31745, 32768))]:
        q.ask('Halves %d %d' % (start, end), summed(map(wide, range(start, end))))
    q.comment('Stored AT WIDTH')
    q.make(b'\0\x01\x7c\x3f\x80\0\0')
    for at, size in ((1, 2), (1, 4), (3, 2), (3, 4)):
        pattern = int.from_bytes(q.file()[at:at + size], 'little')
        q.ask('Stored %d %d' % (at, size), ' %08x' % (wide(pattern) if size == 2 else pattern))


# A node's child mask is at 0, its value mask and its values follow.

BACKGROUND = 0x3fc00000


def node_items(data, coding, size):
    """The value of each place, 8589934592 for a child, then where the values end."""
    child, value = (int.from_bytes(data[at:at + size], 'little') for at in (0, size))
    reader = Reader(data, 2 * size)
    try:
        stored = Stored(reader, coding, 8 * size, child, value)
    except Refused as refused:
        return (8 * size + 1) * [4294967296 + refused.args[0]]
    return [8589934592 if child >> p & 1 else stored.at(p) for p in range(8 * size)] + [reader.at]


def ask_node(q, coding, size, start=0, end=None):
    end = 8 * size + 1 if end is None else end
    items = node_items(q.file(), coding, size)[start:end]
    q.ask('Node %d %d %d %d %d %d %d' % (start, end, coding.version, coding.flags, coding.width, size, coding.background), summed(items))
    return items


def apart(size):
    """Two masks whose ones are apart."""
    rule = [i * 167 % 65521 // 3 % 256 for i in range(2 * size)]
    return bytes(b & 0x55 if i < size else b & 0xaa for i, b in enumerate(rule))


def nodes(q):
    q.comment('== Node FROM TO VERSION FLAGS WIDTH BYTES BACKGROUND: the values of places, and where they end')
    q.new(2500)
    q.change(0, apart(64))
    q.random(128, 2372, 500)
    for byte in (0, 1, 2, 3, 4, 5, 6, 7, 255):
        q.put(128, bytes([byte]))
        for flags, width in ((0, 2), (2, 2), (0, 4), (2, 4)):
            end = ask_node(q, Coding(224, flags, width, BACKGROUND), 64)[-1]
            if byte < 7:
                q.size(end)
                ask_node(q, Coding(224, flags, width, BACKGROUND), 64, 510)
                q.size(end - 1)
                ask_node(q, Coding(224, flags, width, BACKGROUND), 64, 510)
                q.size(2500)
    for coding in (Coding(222, 2, 4, BACKGROUND), Coding(221, 2, 4, BACKGROUND), Coding(220, 0, 2, BACKGROUND)):
        ask_node(q, coding, 64)
    q.comment('a 4-node of form 3, and the same bytes under 222')
    q.new(18000)
    q.change(0, apart(512))
    q.random(1024, 16976, 0)
    q.put(1024, b'\3')
    ask_node(q, Coding(224, 2, 2, BACKGROUND), 512)
    ask_node(q, Coding(220, 0, 4, BACKGROUND), 512)
    q.comment('a 5-node of form 5, and the same bytes under 222')
    q.new(150000)
    q.random(0, 150000, 9)
    q.put(8192, b'\5')
    ask_node(q, Coding(223, 2, 2, BACKGROUND), 4096)
    ask_node(q, Coding(221, 2, 4, BACKGROUND), 4096)


def must_end(q, coding, end):
    """The values end there: with a byte less they are refused with 2."""
    assert ask_node(q, coding, 64)[-1] == end
    size = q.length
    q.size(end - 1)
    assert ask_node(q, coding, 64, 511) == 2 * [4294967296 + 2]
    q.size(size)


def numbers_before_runs(q):
    """With flag 0x1 or 0x4 (N3). The number stands behind inactive values and selection mask."""
    q.comment('a number before the run')
    q.new(2500)
    q.change(0, apart(64))
    active = sum(bits(q, 64, 64))
    for byte in range(7):
        at = 129 + {2: 4, 4: 4, 5: 8}.get(byte, 0) + (64 if byte in (3, 4, 5) else 0)
        for flags, width in ((1, 2), (3, 2), (4, 4), (6, 4)):
            size = width * (active if flags & 2 and byte != 6 else 512)
            q.random(128, 2372, 500 + flags)
            q.put(128, bytes([byte]))
            q.quad(at, 2 ** 64 - size)
            must_end(q, Coding(224, flags, width, BACKGROUND), at + 8 + size)
            for number, expected in (1, 6), (1 - size, 25):
                q.quad(at, number % 2 ** 64)
                assert ask_node(q, Coding(224, flags, width, BACKGROUND), 64, 511) == 2 * [4294967296 + expected]
    q.comment('the same under 222')
    for version, width in ((220, 4), (221, 2)):
        size = width * bits(q, 0, 64).count(0)
        q.quad(128, 2 ** 64 - size)
        must_end(q, Coding(version, 1, width, BACKGROUND), 136 + size)


def numbers_before_nothing(q):
    """An empty run of floats has a number, one of halves has none."""
    q.comment('no place is active')
    q.new(140)
    for flags in (3, 6, 7):
        must_end(q, Coding(224, flags, 4, BACKGROUND), 137)
        must_end(q, Coding(224, flags, 2, BACKGROUND), 129)
    q.comment('each place has a child')
    q.put(0, 64 * b'\xff')
    must_end(q, Coding(220, 1, 4, BACKGROUND), 136)
    for number, expected in (1, 6), (-1, 25):
        q.quad(128, number % 2 ** 64)
        assert ask_node(q, Coding(220, 1, 4, BACKGROUND), 64, 511) == 2 * [4294967296 + expected]
        assert ask_node(q, Coding(221, 1, 2, BACKGROUND), 64)[-1] == 128


def marked(q):
    """Section 9."""
    q.comment('== ones 2, 5 and 9, form 5, place 4 selected: places 5, 4 and 3')
    q.new(2500)
    q.put(64, b'\x24\2')
    q.put(128, b'\5', struct.pack('<II', 0x11, 0x22), b'\x10')
    q.put(201, struct.pack('<III', 0xa0, 0xa1, 0xa2))
    for place, held in ((5, 0xa1), (4, 0x22), (3, 0x11)):
        assert ask_node(q, Coding(224, 2, 4, BACKGROUND), 64, place, place + 1) == [held]
    q.comment('version 220, children 0 and 2: place 3')
    q.new(2500)
    q.put(0, b'\5')
    q.put(128, struct.pack('<IIII', 0xb0, 0xb1, 0xb2, 0xb3))
    assert ask_node(q, Coding(220, 0, 4, BACKGROUND), 64, 3, 4) == [0xb1]


# A node byte, and what is held by an inactive place of its node and by a selected one, where 0x11 and 0x22 are read: written by hand (N1).
HELD = [(0, 0x3fc00000, 0x3fc00000), (1, 0xbfc00000, 0xbfc00000), (2, 0x11, 0x11), (3, 0xbfc00000, 0x3fc00000), (4, 0x11, 0x3fc00000),
        (5, 0x11, 0x22)]
# A background and minus it: zeros, infinities, a signalling and a quiet NaN, the least number; and a pattern whose low half would be a number.
MINUS = [(0, 0x80000000), (0x80000000, 0), (0x7f800000, 0xff800000), (0xff800000, 0x7f800000), (0x7f812345, 0xff812345), (0xffc00001, 0x7fc00001),
         (1, 0x80000001), (0xffffffff, 0x7fffffff), (0x3c00, 0x80003c00), (0xbc00, 0x8000bc00)]


def put_inactive(q, size, byte):
    """A node with children 0 and 1, ones 2, 5 and 9, and places 4 and 5 selected."""
    q.new(2 * size + 4200)
    q.put(0, b'\3')
    q.put(size, b'\x24\2')
    read = struct.pack('<II', 0x11, 0x22)[:{2: 4, 4: 4, 5: 8}.get(byte, 0)]
    q.put(2 * size, bytes([byte]) + read + (b'\x30' if byte in (3, 4, 5) else b''))


def inactives(q):
    q.comment('== each node byte, places 4 and 5 selected: places 3 and 4 of a leaf, of a 4-node and of a 5-node')
    for byte, *held in HELD:
        for size in (64, 512, 4096):
            put_inactive(q, size, byte)
            for width in (4, 2):
                assert ask_node(q, Coding(224, 2, width, BACKGROUND), size, 3, 5) == held
    q.comment('minus the background: bytes 1 and 3, and the background of byte 0')
    for byte in (0, 1, 3):
        put_inactive(q, 64, byte)
        for background, minus in MINUS:
            for width in (4, 2):
                found = ask_node(q, Coding(224, 2, width, background), 64, 3, 5)
                assert found == {0: 2 * [background], 1: 2 * [minus], 3: [minus, background]}[byte]
    q.comment('without flag 2, and under 222, every place is stored')
    for version, flags in ((224, 0), (220, 0)):
        assert ask_node(q, Coding(version, flags, 4, BACKGROUND), 64, 3, 5) == 2 * [0]


# Sections 4 and 7, with Python's own // and %, whose remainder by m is 0 to m - 1 also for a negative number

NODES = [(32, 128), (16, 8), (8, 1)]


def put_vector(q, vector):
    q.comment('%d %d %d' % vector)
    q.change(0, struct.pack('<iii', *vector))


def ask_place(q, root, places, corners=None):
    put_vector(q, root)
    found = [root]
    if not any(c % 4096 for c in root):
        for p, (side, step) in zip(places, NODES):
            found.append(moved(found[-1], p, side, step))
    assert corners is None or found[1:] == corners
    q.ask('Place %d %d %d' % places, ''.join(numbers(*v) for v in found))


def ask_voxel(q, voxel):
    put_vector(q, voxel)
    at = tuple(c - c % 4096 for c in voxel)
    words = numbers(*voxel) + numbers(*at)
    for side, step in NODES:
        x, y, z = (c % (side * step) // step for c in voxel)
        p = x * side * side + y * side + z
        words += numbers(p, x, y, z)
        at = moved(at, p, side, step)
    assert at == voxel
    q.ask('Voxel', words)


def coordinates(q):
    q.comment('== Place P5 P4 P3: the corners of places below the root whose origin is at 0')
    q.new(12)
    ask_place(q, (0, 0, 0), (1057, 0, 0), [(128, 128, 128), (128, 128, 128), (128, 128, 128)])
    ask_place(q, (0, 0, 0), (0, 3, 0), [(0, 0, 0), (0, 0, 24), (0, 0, 24)])
    ask_place(q, 3 * (2147479552,), (32767, 4095, 511), [3 * (2147479552 + 3968,), 3 * (2147479552 + 4088,), 3 * (2147483647,)])
    ask_place(q, 3 * (-2147483648,), (0, 0, 0))
    ask_place(q, (-4096, 0, 4096), (1057, 4095, 74), [(-3968, 128, 4224), (-3848, 248, 4344), (-3847, 249, 4346)])
    q.comment('no root has this origin')
    ask_place(q, (1, 0, 0), (0, 0, 0))
    q.comment('== Voxel: the origin of its root, and the number and the place in each of its nodes')
    for voxel in [(-3847, 249, 4346), (-1, -1, -1), (-2147483648, 2147483647, 0), (-4097, -4096, -4095), (123, -456, 78901)]:
        ask_voxel(q, voxel)


def ask(q):
    fields(q)
    masks(q)
    halves(q)
    nodes(q)
    numbers_before_runs(q)
    numbers_before_nothing(q)
    marked(q)
    inactives(q)
    coordinates(q)
