"""Questions to the fourteen calls, with the answers of the reader in document.py."""
import document
from document import File, Opened, Refused
from program import Program, changes, in_quotes, spelt, summed

SLOTS = 1600
# The number of words of a walk's place, each of which is set in turn.
WORDS = 35


def answered(call):
    try:
        return call()
    except Refused as refusal:
        return ' refused %d' % refusal.args


def refusal(call):
    """The refusal's number, 0 where there is none."""
    try:
        call()
    except Refused as refusal:
        return refusal.args[0]
    return 0


def span(found):
    return ' %d %d %s' % (found[0], found[1], in_quotes(found[2]))


def numbers(*found):
    return ''.join(' %d' % number for number in found)


def header(file):
    return numbers(file.version, *file.library, file.packed, file.metadata, len(file.grids)) + span(file.identity)


def descriptor(grid):
    return (span(grid.name) + span(grid.type) + span(grid.parent)
            + numbers(grid.grid, grid.block, grid.end, grid.flags, document.width(grid), grid.metadata, grid.tree))


def value(found):
    letter, *rest = found
    if letter in 'so':
        return ' ' + letter + ''.join(map(span, rest))
    return ' ' + letter + (' %08x' % rest[0] if letter == 'f' else numbers(*rest[0]))


def double(pattern):
    return ' nan' if pattern & 2 ** 63 - 1 > 0x7ff << 52 else ' %016x' % pattern


def shown_map(found):
    case, doubles = found
    return ' ' + case + ''.join(map(double, doubles))


def opened(grid):
    return shown_map(grid.map) + ' %08x %d %d %d' % (grid.background, grid.roots, len(grid.leaves), grid.records)


def after_fill(answer, values, whole):
    """The slots held 7 before; those behind the lent ones still do."""
    slots = values + [7] * (SLOTS - len(values))
    return answer + (changes(slots, 0, '%08x') if whole else '') + summed(slots)


def after_origins(found):
    """The origins, and that all other slots are as they were."""
    return ' f' + ''.join(' | %d %d %d' % tuple(origin) for origin in found) + ' 1'


def walked(records, start, slots):
    """What is handed out with so many slots from the place after `start` records, that all is as it should be, and the sum."""
    found = records[start:start + slots]
    items = [item + 2 ** 31 if place < 3 else item for record in found for place, item in enumerate(record)]
    return numbers(len(found), len(records[start:]) - len(found), 1, 1, 1) + summed(items)


def walked_whole(records, portions):
    """All records, or none where no call has slots; then a call with five slots."""
    end = len(records) if any(portions) else 0
    return walked(records, 0, end) + walked(records, end, 5)


def listed(records):
    return ''.join(' | %d %d %d %d %08x' % record for record in records[:1000])


def asked_for(words, asked):
    """A number as one word more, a name behind a colon."""
    return '%s %d' % (words, asked) if isinstance(asked, int) else '%s: %s' % (words, named(asked))


def named(name):
    if all(32 <= b < 127 and b != 34 for b in name):
        return '"%s"' % name.decode()
    return spelt(name)


class Questions(Program):
    """Each question is answered by the reader of document.py; `other` is what another reader says, which must be the same."""

    def header(self, other=None):
        self.ask('header', answered(lambda: header(File(self.file()))), other)

    def descriptor(self, asked, other=None):
        self.ask(asked_for('descriptor', asked), answered(lambda: descriptor(File(self.file()).grid(asked))), other)

    def entry(self, name, other=None):
        self.ask('entry: ' + named(name), answered(lambda: value(document.entry(File(self.file()).entries, name))), other)

    def metadata(self, asked, name, other=None):
        line = 'metadata %d: %s' % (asked, named(name)) if isinstance(asked, int) \
            else 'metadata: %s, %s' % (named(asked), named(name))
        self.ask(line, answered(lambda: value(document.entry(File(self.file()).grid(asked).entries, name))), other)

    def open(self, asked, other=None):
        self.ask(asked_for('open', asked), answered(lambda: opened(Opened(self.file(), asked))), other)

    def fill(self, asked, leaf, slots=512, word='fill', other=None):
        answer, values = ' f', []
        try:
            grid = Opened(self.file(), asked)
            values = grid.joined(leaf, slots) if word == 'joined' else grid.fill(leaf, slots)
        except Refused as refused:
            answer = ' refused %d' % refused.args
        self.ask(asked_for('%s %d %d' % (word, leaf, slots), asked), after_fill(answer, values, word == 'values'), other)

    def values(self, asked, leaf, slots=512):
        self.fill(asked, leaf, slots, 'values')

    def origins(self, asked, first, *lengths, other=None):
        try:
            answer = after_origins(Opened(self.file(), asked).run(first, *lengths))
        except Refused as refused:
            answer = ' refused %d 1' % refused.args
        self.ask(asked_for('Origins' + numbers(first, *lengths), asked), answer, other)

    def row(self, word, start, end, call):
        """The refusals of the file cut to each of these lengths."""
        data = memoryview(self.file())
        found = [refusal(lambda: call(data[:length])) for length in range(start, end)]
        self.ask('%s %d %d' % (word, start, end), changes(found, start, '%d') + summed(found))

    def cuts(self, start, end):
        self.row('cuts', start, end, lambda data: Opened(data, 0))

    def trims(self, start, end):
        self.row('trims', start, end, File)

    def walk(self, asked, *portions, other=None):
        self.ask('Walk' + numbers(asked, *portions),
                 answered(lambda: walked_whole(Opened(self.file(), asked).active(), portions)), other)

    def list(self, asked, other=None):
        self.ask('List %d' % asked, answered(lambda: listed(Opened(self.file(), asked).active())), other)

    def next(self, length, asked, start, slots, answer):
        self.ask('Next' + numbers(length, asked, start, slots), answer)

    def tried(self, word, length, asked, start, slots, *more):
        """All of these calls must be answered in the way that the word says."""
        calls = more[1] - more[0] if len(more) == 2 else WORDS if more else 1
        self.ask(word + numbers(length, asked, start, slots, *more), numbers(calls, calls))
