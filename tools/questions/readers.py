"""What three readers say of a stored file, one beside the other: OpenVDB, the model of document 01, the Rust.

Each says it in the text of compare/README.md: OpenVDB by what tools/openvdb has printed, the model by compare/by_document.py over the
file's bytes, the Rust by what is kept in compare/rust/answers. The first two must be the same in each line, every value of every
leaf included. Where the Rust says otherwise, compare/rust/listed.py must know the row of docs/DIFFERENCES.md. What was compared, and
those rows, are said in comments before the questions about the file. OpenVDB's answers are printed by tools/openvdb/describe.cc: its own parse of
the bytes has starts, flags and file_delayed_load, document 01 the refusals.
"""
import functools
import os
import sys

from document import LEVELS, Opened, moved, rising
from program import Differ

ROOT = os.path.join(os.path.dirname(os.path.abspath(__file__)), '..', '..')
DESCRIBED = os.path.join(ROOT, 'tools', 'openvdb', 'out')
sys.path[1:1] = [os.path.join(ROOT, 'compare'), os.path.join(ROOT, 'compare', 'rust')]
import answers  # noqa: E402
import by_document  # noqa: E402
import by_openvdb  # noqa: E402
import canonical  # noqa: E402
import listed  # noqa: E402


def made():
    """Of each stored file the program and the writer that made it."""
    with open(os.path.join(ROOT, 'tools', 'openvdb', 'clouds.txt'), encoding='ascii') as file:
        lines = [line.split(maxsplit=2) for line in file.read().splitlines()]
    return {name: how for name, _, how in lines}


MADE = made()
FILES = list(MADE)


def must(holds, *words):
    if not holds:
        raise Differ(' '.join(words))


@functools.cache
def stored(name):
    """The bytes of a stored file, which must be those that were described."""
    found = []
    for folder in (os.path.join(ROOT, 'crates', 'questions', 'data'), DESCRIBED):
        with open(os.path.join(folder, name + '.vdb'), 'rb') as file:
            found.append(file.read())
    must(found[0] == found[1], name, 'is stored otherwise than tools/openvdb makes it')
    return found[0]


@functools.cache
def printed(name, ending):
    """What tools/openvdb has printed of a file: txt, values or read."""
    with open(os.path.join(DESCRIBED, '%s.%s' % (name, ending)), encoding='ascii') as file:
        return file.read().splitlines()


def leaves(name):
    """For each grid's number the 512 patterns of each of its leaves."""
    return {grid: [values for _, values in found] for grid, found in by_openvdb.leaves(printed(name, 'values')).items()}


def origins(name):
    """For each grid's number the origin of each of its leaves."""
    return {grid: [origin for origin, _ in found] for grid, found in by_openvdb.leaves(printed(name, 'values')).items()}


def by_library(name, side='values', values=False):
    """OpenVDB's text; with the side `read` it has zero wherever the file brings no value (D38)."""
    return by_openvdb.text(printed(name, 'txt'), printed(name, side), values, more=True)


# The words of a comment

def joined(words):
    words = list(map(str, words))
    return ' and '.join(filter(None, [', '.join(words[:-1]), words[-1]]))


def counted(number, word, total=None):
    """So many of all."""
    several = word if (total or number) == 1 else {'leaf': 'leaves'}.get(word, word + 's')
    return '%d %s' % (number, several) if total in (None, number) else '%d of %d %s' % (number, total, several)


def in_grids(numbers):
    """None stands for the file."""
    return 'the file' if None in numbers else 'grid%s %s' % ('s' * (len(numbers) > 1), joined(sorted(numbers)))


def lines_of(name, word):
    """What stands behind a word, each time that a line of OpenVDB's begins with it."""
    return [line[len(word) + 1:] for line in printed(name, 'txt') if line.startswith(word + ' ')]


# Each reader's comment

def openvdb_line(name):
    tiles = sum(int(line.split()[-1]) for line in lines_of(name, 'roottiles'))
    if not lines_of(name, 'grids'):
        return 'OpenVDB 10: not asked, since document 01 refuses the file'
    parts = ['OpenVDB 10: the answers below']
    if tiles:
        parts.append(counted(tiles, 'active root tile') + ' not listed')
    return '; '.join(parts)


def model_line(name, asked):
    for read in (True, False):
        text = '\n'.join(by_document.lines(stored(name), values=True, more=True, read=read)) + '\n'
        library = by_library(name, 'read' if read else 'values', values=True)
        must(text == library, name, 'model | OpenVDB:', str(canonical.first_difference(text, library)))
    parts = ['the model, by tools/questions/document.py over the bytes: the same ' + counted(asked, 'answer')]
    for word, before in (('leaf', 'each value of '), ('record', '')):
        number = sum(line.startswith(word + ' ') for line in text.splitlines())
        parts += [before + counted(number, word)] * (number > 0)
    return ', '.join(parts)


def same_things(rust, expected):
    """What the Rust says as well, in words."""
    same = [name for name in rust if name[1] != 'answer' and rust[name] == expected.get(name)]
    kinds = [canonical.kind(name) for name in same]
    found = [kind for kind in ('header', 'descriptors', 'metadata', 'transform') if kind in kinds]
    leaves, records = (sum(name[1] == word for name in same) for word in ('leaf', 'record'))
    records += sum(int(expected[name[0], 'records']) for name in same if name[1] == 'digest')
    every = sum(int(expected[name]) for name in expected if name[1] == 'records')
    if any(name[1] == 'leaf' for name in expected):
        found.append('values of ' + counted(leaves, 'leaf', sum(name[1] == 'leaf' for name in expected)))
    return found + [counted(records, 'record', every)] * (every > 0)


def by_place(name, number):
    """The ends of the records of a grid's 5-nodes, level and value, where a stored value is taken by its place, as D24 says."""
    found = {}
    for origin, mask, stored5, _ in Opened(stored(name), number).tree:
        stored5.stored = 2 ** 32768 - 1
        for place in rising(mask):
            found['%d %d %d' % moved(origin, place, *LEVELS[2])] = ['2', '%08x' % stored5.at(place)]
    return found


def other_things(name, found, rust, expected, numbers):
    """What the Rust says otherwise, by rows of docs/DIFFERENCES.md, in words."""
    rows, version, read = {}, int(expected.get((None, 'version'), 0)), canonical.items(by_library(name, 'read'))
    for thing, one, other in found:
        row = listed.row(thing, one, other, version, rust, expected, read)
        words = one.split()
        exact = row != 'D24' or thing[1] != 'record' or words[6:] == by_place(name, numbers[thing[0]]).get(' '.join(words[:3]))
        must(row and exact, name, str(thing), 'the Rust: %s | expected: %s' % (one, other))
        word = {'answer': 'answered' if one == 'answered' else one.split(':')[0], 'background': 'no background'}.get(thing[1], thing[1])
        rows.setdefault(row, {}).setdefault(word, []).append(numbers[thing[0]])
    for row in sorted(rows, key=lambda row: int(row[1:])):
        parts = [(counted(len(grids), word) if word in ('leaf', 'record') else word) + ' in ' + in_grids(set(grids))
                 for word, grids in rows[row].items()]
        yield '%s (%s)' % (row, joined(parts))


def rust_line(name):
    kept = answers.kept(name, stored(name))
    must(kept, name, 'has no answers of the Rust in compare/rust/answers, or they are of other bytes')
    text = canonical.shortened(by_library(name))
    must(kept.splitlines()[0] == text.splitlines()[0], name, 'is not as long as the Rust says')
    rust, expected = canonical.items(kept), canonical.items(text)
    numbers = {None: None, **{line.split(' ', 2)[2]: number for number, line in enumerate(lines_of(name, 'name'))}}
    parts = ['the Rust, by compare/rust/answers/%s.txt' % name]
    found = canonical.differences(kept, text)[1]
    silent = [thing[0] for thing in rust if thing[1] == 'answer' and thing in expected]
    if None in silent:
        return parts[0] + ': no answer either, ' + rust[None, 'answer']
    parts[0] += ': the same ' + joined(same_things(rust, expected))
    parts += other_things(name, found, rust, expected, numbers)
    if silent:
        parts.append('no answer either in ' + in_grids([numbers[grid] for grid in silent]))
    return '; '.join(parts)


def lines(name, asked):
    """The comments about a file of which so many questions are asked."""
    numbers = lines_of(name, 'version') + lines_of(name, 'library')
    return ['made by %s; version %s, library numbers %s' % (MADE[name], *numbers), openvdb_line(name), model_line(name, asked), rust_line(name)]
