"""Header, descriptors and metadata: case A of document 01, section 9, without its tree, and other files made from it.

Each file stands with the refusal that section 8 gives it when it is opened, found by hand, 0 where there is none; the reader
of document.py must agree.
"""
import os
import struct
import sys

from calls import refusal
from document import File
from program import joined

sys.path.append(os.path.join(os.path.dirname(os.path.abspath(__file__)), '..'))
from case_a import A, AT, BLOCK, FIELD, GRID, LENGTH  # noqa: E402

BIG = 2 ** 32 - 1
NAME, TREE = (FIELD[name].decode() for name in ('name', 'type'))


def u32(*numbers):
    return struct.pack('<%dI' % len(numbers), *numbers)


def u64(*numbers):
    return struct.pack('<%dQ' % len(numbers), *numbers)


# Parts of files: lists of bytes and text

def fields(*names):
    """Fields of case A."""
    return [FIELD[name] for name in names]


def string(text):
    return [u32(len(text)), text]


def entry(name, kind, value):
    return string(name) + string(kind) + string(value)


def head(version):
    """What stands before the identity, and a byte more under 222."""
    return [FIELD['magic'], u32(version)] + fields('library number, major', 'library number, minor', 'offsets byte') + ([b'\0'] if version < 222 else [])


def descriptor(name, kind, *positions):
    return string(name) + string(kind) + string('') + [u64(position) for position in positions]


# The identity's bytes are free.
IDENTITY = descriptor('', '', 118, 0, 300)


def case_a(q):
    """A up to its tree, field by field."""
    q.new(LENGTH)
    q.comment('magic, version 224, library 10 1, offsets byte')
    q.put(AT['magic'], *head(224))
    q.comment('the identity, whose bytes are free: a descriptor with empty names and the positions 118, 0 and 300')
    q.put(AT['identity'], *IDENTITY)
    q.comment('no metadata, one grid')
    q.put(AT['metadata of the file, count'], *fields('metadata of the file, count', 'grid count'))
    q.comment('its name, type and parent')
    q.put(AT['name, length'], *descriptor(NAME, TREE))
    q.comment('its positions')
    q.quad(AT['grid position'], GRID)
    q.quad(AT['block position'], BLOCK)
    q.quad(AT['end position'], LENGTH)
    q.comment('its flags; no metadata')
    q.word(AT['flags'], int.from_bytes(FIELD['flags'], 'little'))
    must_be_a(q, AT['map, length'], ['identity'])


def must_be_a(q, end, free):
    """Up to a position the file is case A, but for these fields, which it leaves free."""
    made = bytearray(q.file())
    for name in free:
        made[AT[name]:AT[name] + len(FIELD[name])] = FIELD[name]
    assert made[:end] == A[:end]


def old(q):
    """A up to its tree as version 220."""
    q.new(LENGTH)
    q.put(0, *head(220))
    q.put(22, *IDENTITY)
    q.put(58, *fields('metadata of the file, count', 'grid count'), *descriptor(NAME, TREE, GRID, BLOCK, LENGTH))
    q.put(119, u32(2))


def many(q):
    """64 grids named by one character, and a descriptor more. The zeros at 9000 are the flags and metadata of all."""
    q.new(LENGTH)
    q.put(0, *head(224))
    q.put(57, u32(0), u32(64))
    for i in range(65):
        q.put(65 + 37 * i, *descriptor(chr(48 + i), '', 9000, 0, 65 + 37 * (i + 1)))


EACH_KIND = [
    entry('s', 'string', 'abc'), entry('e', 'string', ''), entry('b', 'bool', b'\0'),
    entry('t', 'bool', b'\x80'), entry('i', 'int32', struct.pack('<i', -2 ** 31)),
    entry('j', 'int64', struct.pack('<q', -2)), entry('f', 'float', u32(0x7f800001)),
    entry('v', 'vec3i', struct.pack('<iii', -1, 2, -2 ** 31)), entry('o', 'double', b'\x01\x02'),
    entry('k', '', b'\xff'), entry('', 'int32', struct.pack('<i', -1)), entry('x', 'Bool ', bytes(3))]


def put_in_turn(q, at, lists):
    """Each list as a line, one behind the other."""
    for parts in lists:
        q.put(at, *parts)
        at += len(joined(parts))


def entries(q):
    """Entries of each kind, for the file at 57 and for its grid at 4004."""
    q.new(LENGTH)
    q.put(0, *head(224))
    put_in_turn(q, 57, [[u32(12)]] + EACH_KIND + [[u32(1)], descriptor(NAME, TREE, 4000, BLOCK, LENGTH)])
    put_in_turn(q, 4000, [[u32(2)], [u32(12)]] + EACH_KIND)


# What is asked about a file

def all_calls(q):
    q.header()
    q.descriptor(b'd')
    q.descriptor(0)
    q.descriptor(1)
    each_entry(q, b'x')


def each_entry(q, name):
    q.entry(name)
    q.metadata(b'd', name)
    q.metadata(0, name)


def entries_of_all_names(q):
    for name in (b's', b'e', b'b', b't', b'i', b'j', b'f', b'v', b'o', b'k', b'', b'x'):
        each_entry(q, name)


LONG = b'd' * 300


def names_and_numbers(q):
    for asked in (b'd', b'e', b'', b'D', b'dd', b'd\0', b'o', b'p', LONG, 0, 2, 63, 64, BIG):
        q.descriptor(asked)
    q.entry(LONG)
    q.metadata(LONG, b'x')
    q.metadata(0, LONG)
    q.metadata(BIG, b'x')


def cut_everywhere(q):
    q.trims(0, LENGTH + 1)


A_FILES = [
    'case A',
    (0, all_calls, []),
    'row 1, over 2,147,483,647 bytes, stands in the contracts alone: no such file is lent here',
    'row 2: the first 64 bytes',
    (2, all_calls, [], 64),
    'row 3: first byte 21',
    (3, all_calls, [(0, 1, 0x21)]),
    'row 4: version 219',
    (4, all_calls, [(8, 4, 219)]),
    'row 5: offsets byte 0',
    (5, all_calls, [(20, 1, 0)]),
    'row 6: flags 3, which only the opening of a grid refuses',
    (0, all_calls, [(118, 4, 3)]),
    'row 7: flags 8',
    (7, all_calls, [(118, 4, 8)]),
    'row 8: count 65',
    (8, all_calls, [(61, 4, 65)]),
    'row 9: end 9638',
    (9, all_calls, [(110, 8, 9638)]),
    'row 10: "d" twice',
    (10, all_calls, [(61, 4, 2), (110, 8, 65)]),
    'row 11: "e" asked, and other names and numbers',
    (0, names_and_numbers, []),
    'the same: two grids, "d" and one with an empty name; no grid, in a file shorter than the name',
    (0, names_and_numbers, [(61, 4, 2), (110, 8, 21)]),
    (0, names_and_numbers, [(61, 4, 0)], 65),

    'versions; 220 and 221 take the first byte of the identity for the packed byte',
    (2, all_calls, [(8, 4, 220)]),
    (2, all_calls, [(8, 4, 221)]),
    (0, all_calls, [(8, 4, 222)]),
    (0, all_calls, [(8, 4, 223)]),
    (4, all_calls, [(8, 4, 225)]),
    (4, all_calls, [(8, 4, 0)]),
    (4, all_calls, [(8, 4, BIG)]),
    'each byte of the magic, and the magic as the Rust has it',
    (3, all_calls, [(1, 1, 0)]),
    (3, all_calls, [(2, 1, 0)]),
    (3, all_calls, [(3, 1, 0)]),
    (3, all_calls, [(4, 1, 1)]),
    (3, all_calls, [(5, 1, 1)]),
    (3, all_calls, [(6, 1, 1)]),
    (3, all_calls, [(7, 1, 1)]),
    (3, all_calls, [(0, 8, 0x2042445600000000)]),
    'offsets byte, flags, grid count',
    (5, all_calls, [(20, 1, 2)]),
    (5, all_calls, [(20, 1, 255)]),
    (0, all_calls, [(118, 4, 0)]),
    (0, all_calls, [(118, 4, 7)]),
    (7, all_calls, [(118, 4, 256)]),
    (7, all_calls, [(118, 4, BIG)]),
    (0, all_calls, [(61, 4, 0)]),
    (8, all_calls, [(61, 4, BIG)]),
    'grid position: room for flags and count, for flags only, for nothing; past the end; the magic and the descriptor as flags and metadata',
    (0, all_calls, [(94, 8, 9629)]),
    (2, all_calls, [(94, 8, 9630)]),
    (2, all_calls, [(94, 8, 9634)]),
    (2, all_calls, [(94, 8, 9637)]),
    (9, all_calls, [(94, 8, 9638)]),
    (9, all_calls, [(94, 8, 2 ** 32 + 118)]),
    (9, all_calls, [(94, 8, 2 ** 63)]),
    (9, all_calls, [(94, 8, 2 ** 64 - 16)]),
    (7, all_calls, [(94, 8, 0)]),
    (0, all_calls, [(94, 8, 57)]),
    'block and end position',
    (0, all_calls, [(102, 8, 9637)]),
    (9, all_calls, [(102, 8, 9638)]),
    (9, all_calls, [(102, 8, 2 ** 64 - 16)]),
    (0, all_calls, [(110, 8, 0)]),
    (9, all_calls, [(110, 8, 2 ** 32)]),
    'lengths of name, type and parent: to the end of the file and past it; a parent of one byte moves the positions',
    (2, all_calls, [(65, 4, 9568)]),
    (2, all_calls, [(65, 4, 9569)]),
    (2, all_calls, [(65, 4, BIG)]),
    (2, all_calls, [(70, 4, BIG)]),
    (2, all_calls, [(90, 4, BIG)]),
    (9, all_calls, [(90, 4, 1)]),

    'the next descriptor at the same place 64 times, at the file\'s start, in the identity, inside, at the end, four bytes before it',
    (10, all_calls, [(61, 4, 64), (110, 8, 65)]),
    (2, all_calls, [(61, 4, 2), (110, 8, 0)]),
    (0, all_calls, [(61, 4, 2), (110, 8, 21)]),
    (0, all_calls, [(61, 4, 2), (110, 8, 70), (216, 8, 118)]),
    (2, all_calls, [(61, 4, 2), (110, 8, 9637)]),
    (2, all_calls, [(61, 4, 2), (110, 8, 9633)]),
    'three grids: the one in the identity, then itself or the first one again',
    (10, all_calls, [(61, 4, 3), (110, 8, 21), (49, 8, 21)]),
    (10, all_calls, [(61, 4, 3), (110, 8, 21), (49, 8, 65)]),

    'two checks fail: the first in file order counts, and a field is whole before it is checked',
    (3, all_calls, [(0, 1, 0x21), (8, 4, 219)]),
    (2, all_calls, [(0, 1, 0x21)], 7),
    (3, all_calls, [(0, 1, 0x21)], 8),
    (2, all_calls, [(8, 4, 219)], 11),
    (4, all_calls, [(8, 4, 219)], 12),
    (4, all_calls, [(8, 4, 219), (20, 1, 0)]),
    (2, all_calls, [(20, 1, 0)], 20),
    (5, all_calls, [(20, 1, 0)], 21),
    (5, all_calls, [(20, 1, 0), (61, 4, 65)]),
    (2, all_calls, [(57, 4, 1), (61, 4, BIG)]),
    (2, all_calls, [(61, 4, 65)], 64),
    (8, all_calls, [(61, 4, 65)], 65),
    (8, all_calls, [(61, 4, 65), (94, 8, 9638)]),
    (2, all_calls, [(65, 4, BIG), (94, 8, 9638)]),
    'all of rows 3, 4, 5, 8, 9 and 7 at once, then one less each time',
    (3, all_calls, [(0, 1, 0x21), (8, 4, 219), (20, 1, 0), (61, 4, 65), (110, 8, 9638), (118, 4, 8)]),
    (4, all_calls, [(8, 4, 219), (20, 1, 0), (61, 4, 65), (110, 8, 9638), (118, 4, 8)]),
    (5, all_calls, [(20, 1, 0), (61, 4, 65), (110, 8, 9638), (118, 4, 8)]),
    (8, all_calls, [(61, 4, 65), (110, 8, 9638), (118, 4, 8)]),
    'all three positions are before the flags, these before the metadata, this before a repeated name',
    (9, all_calls, [(94, 8, 9638), (118, 4, 8)]),
    (9, all_calls, [(110, 8, 9638), (118, 4, 8)]),
    (9, all_calls, [(94, 8, 9637), (110, 8, 9638)]),
    (7, all_calls, [(118, 4, 8), (122, 4, BIG)]),
    (7, all_calls, [(118, 4, 8), (61, 4, 2), (110, 8, 65)]),
    (2, all_calls, [(122, 4, BIG), (61, 4, 2), (110, 8, 65)]),
    'the third grid, of zero bytes at 300, has the empty name of the second: its own position, flags, metadata; a fourth descriptor',
    (10, all_calls, [(61, 4, 3), (110, 8, 21), (312, 8, 9000)]),
    (9, all_calls, [(61, 4, 3), (110, 8, 21), (312, 8, 9638)]),
    (7, all_calls, [(61, 4, 3), (110, 8, 21), (312, 8, 0)]),
    (2, all_calls, [(61, 4, 3), (110, 8, 21), (312, 8, 9633)]),
    (10, all_calls, [(61, 4, 4), (110, 8, 21), (312, 8, 9000)]),
    'metadata counts: entries of twelve zero bytes, 792 of which fit behind the flags of A',
    (2, all_calls, [(57, 4, BIG)]),
    (2, all_calls, [(122, 4, BIG)]),
    (0, all_calls, [(122, 4, 1)]),
    (0, all_calls, [(122, 4, 792)]),
    (2, all_calls, [(122, 4, 793)]),
    'cuts at every length; then with block and end position 0, so that only the grid position is ever past the cut',
    (0, cut_everywhere, []),
    (0, cut_everywhere, [(102, 8, 0), (110, 8, 0)]),
]

OLD_FILES = [
    'versions 220 and 221 with their packed byte: 0, 1, 2, 255',
    (0, all_calls, [(95, 8, 123)]),
    (0, all_calls, [(95, 8, 123), (21, 1, 1)]),
    (0, all_calls, [(95, 8, 123), (21, 1, 2)]),
    (0, all_calls, [(95, 8, 123), (8, 4, 221)]),
    (0, all_calls, [(95, 8, 123), (8, 4, 221), (21, 1, 255)]),
    'from 222 on there is none: the grid count is read one byte early',
    (8, all_calls, [(95, 8, 123), (8, 4, 222)]),
    'under 222 no flags: what stands at the grid position is a metadata count',
    (0, all_calls, [(95, 8, 119)]),
    (0, all_calls, [(95, 8, 119), (119, 4, 8)]),
    (0, all_calls, [(95, 8, 9633)]),
    (2, all_calls, [(95, 8, 9634)]),
    (9, all_calls, [(95, 8, 9638)]),
    (5, all_calls, [(20, 1, 0)]),
    (2, all_calls, [], 21),
    (2, all_calls, [], 57),
    'cuts at every length, with block and end position 0',
    (0, cut_everywhere, [(95, 8, 123), (103, 8, 0), (111, 8, 0)]),
]

MANY_FILES = [
    '64 grids, 65; the last named as the first, as the one before it, otherwise; not counted',
    (0, all_calls, []),
    (0, names_and_numbers, []),
    (8, all_calls, [(61, 4, 65)]),
    (10, all_calls, [(2400, 1, 48)]),
    (10, all_calls, [(2400, 1, 110)]),
    (0, all_calls, [(2400, 1, 113)]),
    (0, all_calls, [(61, 4, 63), (2400, 1, 48)]),
    'two checks fail in the last grid',
    (9, all_calls, [(2400, 1, 48), (2409, 8, 9638)]),
    (2, all_calls, [(2400, 1, 48), (2409, 8, 9637)]),
    'cuts at every length',
    (0, cut_everywhere, []),
]

ENTRY_FILES = [
    'metadata of every kind',
    (0, all_calls, []),
    (0, entries_of_all_names, []),
    'wrong lengths of fixed kinds, in the file and in the grid',
    (0, all_calls, [(115, 4, 0), (4062, 4, BIG)]),
    (0, all_calls, [(152, 4, BIG), (4099, 4, 0)]),
    (0, all_calls, [(174, 4, 4), (4121, 4, 9)]),
    (0, all_calls, [(200, 4, 255), (4147, 4, 2)]),
    (0, all_calls, [(222, 4, 3), (4169, 4, 13)]),
    (0, entries_of_all_names, [(115, 4, BIG), (152, 4, 5), (222, 4, 11)]),
    (0, entries_of_all_names, [(4080, 4, 0), (4121, 4, BIG), (4147, 4, 3)]),
    'wrong lengths of a string and of another kind move what follows',
    (0, all_calls, [(76, 4, 2)]),
    (2, all_calls, [(76, 4, 4)]),
    (2, all_calls, [(76, 4, BIG)]),
    (8, all_calls, [(308, 4, 2)]),
    (8, all_calls, [(308, 4, 4)]),
    (2, all_calls, [(308, 4, BIG)]),
    (0, all_calls, [(4255, 4, 0)]),
    (0, all_calls, [(4255, 4, 5378)]),
    (2, all_calls, [(4255, 4, 5379)]),
    (2, all_calls, [(4255, 4, BIG)]),
    'a name that comes again: twice, thrice',
    (0, entries_of_all_names, [(87, 1, ord('s')), (4034, 1, ord('s'))]),
    (0, entries_of_all_names, [(164, 1, ord('i')), (298, 1, ord('i')), (4111, 1, ord('i'))]),
    'an entry of the file only, of the grid only',
    (0, all_calls, [(4245, 1, ord('y'))]),
    (0, all_calls, [(298, 1, ord('y'))]),
    'bytes of a bool; the kinds "booL" and "int33"',
    (0, entries_of_all_names, [(119, 1, 1), (137, 1, 0), (4061, 1, ord('L'))]),
    (0, entries_of_all_names, [(137, 1, 255), (4098, 1, ord('3'))]),
    'lengths of the names of an entry and of its kind',
    (2, all_calls, [(61, 4, BIG)]),
    (2, all_calls, [(66, 4, BIG)]),
    (2, all_calls, [(4008, 4, 5626)]),
    'counts that leave the last entry out, all of them, or go on to the end of the file',
    (0, all_calls, [(4004, 4, 11)]),
    (0, all_calls, [(4004, 4, 0)]),
    (2, all_calls, [(4004, 4, BIG)]),
    (2, all_calls, [(57, 4, BIG)]),
    'cuts at every length; then with block and end position 0',
    (0, cut_everywhere, []),
    (0, cut_everywhere, [(356, 8, 0), (364, 8, 0)]),
]


def ask_files(q, files):
    """The file as it stands is kept, and each of the others made from it."""
    q.keep()
    for row in files:
        if isinstance(row, str):
            q.comment(row)
            continue
        number, how, changes, *cut = row
        q.again()
        for at, width, value in changes:
            {1: lambda: q.put(at, bytes([value])), 4: lambda: q.word(at, value), 8: lambda: q.quad(at, value)}[width]()
        for length in cut:
            q.size(length)
        assert refusal(lambda: File(q.file())) == number, (row, refusal(lambda: File(q.file())))
        how(q)


def ask(q):
    q.comment('== case A without its tree')
    case_a(q)
    ask_files(q, A_FILES)
    q.comment('== the same as version 220')
    old(q)
    ask_files(q, OLD_FILES)
    q.comment('== 64 grids named by one character, and a descriptor more; the zeros at 9000 are the flags and metadata of all')
    many(q)
    ask_files(q, MANY_FILES)
    q.comment('== entries of each kind, for the file at 57 and for its grid at 4004')
    entries(q)
    ask_files(q, ENTRY_FILES)
