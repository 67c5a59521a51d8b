#!/usr/bin/env python3
"""The text that every dumper prints (README.md): its lines in Python, and two such texts compared.

    canonical.py ONE OTHER      prints what two texts tell differently; exit status 1 if there is such a thing
"""
import hashlib
import re
import struct
import sys

# A grid with more records has a digest in place of them in a shortened text.
RECORDS = 1000
MAPS = {'UniformScaleMap': 'UniformScaleMap', 'ScaleMap': 'UniformScaleMap',
        'UniformScaleTranslateMap': 'ScaleTranslateMap', 'ScaleTranslateMap': 'ScaleTranslateMap'}
NO_ANSWER = 'error:', 'panic:', 'abort', 'refused'


def quoted(data):
    def shown(byte):
        if byte in b'"\\':
            return '\\' + chr(byte)
        return chr(byte) if 32 <= byte <= 126 else '\\x%02x' % byte
    return '"%s"' % ''.join(map(shown, data))


def digest(patterns):
    """FNV-1a, 64 bits, over the values' bytes, low byte first."""
    found = 0xcbf29ce484222325
    for byte in struct.pack('<%dI' % len(patterns), *patterns):
        found = (found ^ byte) * 0x100000001b3 % 2 ** 64
    return found


def leaf_lines(number, origin, patterns, values):
    yield 'leaf %d %d %d %d %d %016x' % (number, *origin, len(patterns), digest(patterns))
    if values:
        for at in range(0, len(patterns), 8):
            yield 'values ' + ' '.join('%08x' % pattern for pattern in patterns[at:at + 8])


def record_line(corner, level, pattern, more=False):
    """Coordinates are rounded to 32-bit floats, as the Rust gives them; with `more`, X Y Z are not."""
    bits = [struct.pack('<f', number) for number in corner]
    rounded = [int(struct.unpack('<f', four)[0]) for four in bits]
    patterns = [struct.unpack('<I', four)[0] for four in bits]
    return 'record %d %d %d %08x %08x %08x %d %08x' % (*(corner if more else rounded), *patterns, level, pattern)


def shortened(text):
    """The text with one line `digest` in place of the records of a grid with many: SHA-256 over the lines' ends, from BX on."""
    def digested(match):
        ends = [line.split(' ', 4)[4] + '\n' for line in match[2].splitlines()]
        return match[1] + ('digest %s\n' % hashlib.sha256(''.join(ends).encode()).hexdigest() if len(ends) > RECORDS else match[2])
    return re.sub(r'^(records \d+\n)((?:record .*\n)*)', digested, text, flags=re.MULTILINE)


def items(text):
    """From the name of each thing that the text tells to what it tells. A name begins with its grid,
    or with None."""
    found, grid, numbers = {}, None, {}
    for line in text.splitlines():
        word, _, rest = line.partition(' ')
        if word == 'file':
            continue
        if word == 'grid':
            grid, numbers = rest, {}
            found[grid, 'grid'] = ''
        elif word == 'entry':
            name = rest[:rest.index('" "') + 1]
            found[grid, 'entry', name] = rest[len(name) + 1:]
        elif word in ('vector', 'leaf', 'values', 'record'):
            numbers[word] = numbers.get(word, -1) + 1
            found[grid, word, numbers[word]] = rest
        elif word in NO_ANSWER:
            found[grid, 'answer'] = line
        else:
            found[grid, word] = rest
    return found


KINDS = {'version': 'header', 'library': 'header', 'identity': 'header', 'grids': 'header',
         'entries': 'metadata', 'entry': 'metadata', 'map': 'transform', 'vector': 'transform', 'background': 'transform',
         'leaves': 'leaves', 'leaf': 'leaves', 'values': 'leaves',
         'records': 'active items', 'record': 'active items', 'digest': 'active items'}


def kind(name):
    return KINDS.get(name[1], 'descriptors')


def differences(one, other, without=()):
    """How many things of each kind were compared, and those that differ. Where only one side has an
    answer for a grid, or for the file, that is one difference; of the rest of that grid only what
    both sides tell is compared. Of the grids in `without` no leaf and no record is."""
    one, other = items(one), items(other)
    counts, found = {}, []
    whole = (None, 'answer') not in one and (None, 'answer') not in other
    silent = set()
    for grid in sorted({name[0] for name in one | other}, key=str) if whole else [None]:
        answers = [side.get((grid, 'answer')) for side in (one, other)]
        if any(answers):
            silent.add(grid)
            if not all(answers) and grid not in without:
                found.append(((grid, 'answer'), *(answer or 'answered' for answer in answers)))
    for name in sorted(one | other, key=str):
        if name[1] == 'answer':
            continue
        if (not whole or name[0] in silent) and (name[1] == 'records' or name not in one or name not in other):
            continue
        if name[0] in without and kind(name) in ('leaves', 'active items'):
            continue
        counts[kind(name)] = counts.get(kind(name), 0) + 1
        pair = one.get(name, 'absent'), other.get(name, 'absent')
        if pair[0] != pair[1]:
            found.append((name, *pair))
    return counts, found


def first_difference(one, other):
    """The first line that is otherwise."""
    one, other = one.splitlines(), other.splitlines()
    for number in range(max(len(one), len(other))):
        pair = [text[number] if number < len(text) else 'nothing' for text in (one, other)]
        if pair[0] != pair[1]:
            return 'line %d: %s | %s' % (number + 1, *pair)
    return None


def main(one, other):
    with open(one, encoding='ascii') as first, open(other, encoding='ascii') as second:
        counts, found = differences(first.read(), second.read())
    for name, left, right in found:
        print('%s: %s | %s' % (' '.join(str(part) for part in name if part is not None), left, right))
    print('%d things compared, %d differ' % (sum(counts.values()), len(found)))
    return 1 if found else 0


if __name__ == '__main__':
    sys.exit(main(*sys.argv[1:]))
