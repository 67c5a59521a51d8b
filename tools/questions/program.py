"""The lines that go into a program, and what must come out: each line again, with its answer behind it."""
import os
import re

# How long a file may be, and the whole input.
SIZE, INPUT = 262144, 524288
# From here on a program keeps the names of its questions.
NAMES = 200000
# The last position that can be asked for.
FAR = 2 ** 64 - 1
TEXT = re.compile(rb'[A-Za-z_][A-Za-z0-9_ .]{2,}')


def in_quotes(data):
    """As the program prints bytes."""
    return '"%s"' % ''.join(chr(b) if 32 <= b < 127 else '\\%02x' % b for b in data)


def spelt(data):
    """As bytes are given to the program: text in quotes, the others as hexadecimal digits."""
    if isinstance(data, str):
        assert all(' ' <= letter <= '~' and letter != '"' for letter in data)
        return '"%s"' % data
    words, at = [], 0
    for match in TEXT.finditer(data):
        words += [data[at:match.start()].hex(), '"%s"' % match[0].decode()]
        at = match.end()
    return ' '.join(word for word in words + [data[at:].hex()] if word)


def joined(parts):
    """The bytes of parts, some of them text."""
    return b''.join(part.encode() if isinstance(part, str) else part for part in parts)


def noise(count, seed):
    return bytes((seed + i) * 40503 // 997 % 256 for i in range(count))


def summed(numbers):
    """A sum in which each number's place counts."""
    total = 0
    for number in numbers:
        total = (total * 65599 + number) % 4294967291
    return ' = %08x' % total


def changes(numbers, start, form):
    """Where a row of numbers changes, and to what."""
    last, words = None, ''
    for at, number in enumerate(numbers, start):
        if number != last:
            words += (' %d ' + form) % (at, number)
        last = number
    return words


class Differ(Exception):
    """Two readers say different things."""


class Program:
    def __init__(self):
        self.lines, self.data, self.length, self.kept = [], bytearray(SIZE), 0, None
        # how many answers two readers have given
        self.agreed = 0

    def write(self, folder):
        assert sum(len(line) + 1 for line, _ in self.lines) <= INPUT
        with open(os.path.join(folder, 'stdin'), 'w') as asked, open(os.path.join(folder, 'stdout'), 'w') as answered:
            for line, answer in self.lines:
                asked.write(line + '\n')
                answered.write(line + answer + '\n')

    def say(self, line):
        assert '\n' not in line
        self.lines.append((line, ''))

    def ask(self, line, answer, other=None):
        """The question mark is for the eye: the program takes no notice of it. Another reader's answer must be the same."""
        assert '\n' not in line + answer
        if other is not None:
            self.agreed += 1
            if other != answer:
                raise Differ('%s?\n%s\n%s' % (line, answer, other))
        self.lines.append((line + '?', answer))

    def comment(self, text):
        self.say('# ' + text)

    def comments(self, at, texts):
        """Puts comments before the line of a number."""
        assert not any('\n' in text for text in texts)
        self.lines[at:at] = [('# ' + text, '') for text in texts]

    def file(self):
        assert self.length <= NAMES
        return bytes(self.data[:self.length])

    # What changes the file

    def new(self, length):
        self.say('new %d' % length)
        self.data, self.length = bytearray(SIZE), length

    def size(self, length):
        self.say('size %d' % length)
        self.length = length

    def put(self, at, *parts):
        data = joined(parts)
        self.say('bytes %d: %s' % (at, ' '.join(map(spelt, parts))))
        self.data[at:at + len(data)] = data

    def word(self, at, number):
        self.say('word %d %d' % (at, number))
        self.data[at:at + 4] = number.to_bytes(4, 'little')

    def quad(self, at, number):
        self.say('quad %d %d' % (at, number))
        self.data[at:at + 8] = number.to_bytes(8, 'little')

    def random(self, at, count, seed):
        self.say('random %d %d %d' % (at, count, seed))
        self.data[at:at + count] = noise(count, seed)

    def load(self, name, data):
        """A file of data/, and the bytes that stand in it."""
        self.say('load: "%s"' % name)
        self.data, self.length = data, len(data)

    def keep(self):
        self.say('keep')
        self.kept = bytes(self.data), self.length

    def again(self):
        self.data, self.length = bytearray(self.kept[0]), self.kept[1]
        self.say('again %d' % self.length)

    def change(self, at, data):
        """Puts those bytes of `data` that are not there yet."""
        assert at + len(data) <= SIZE
        for match in re.finditer(rb'\x01+(\x00{1,3}\x01+)*', bytes(int(a != b) for a, b in zip(data, self.data[at:]))):
            for start in range(match.start(), match.end(), 48):
                self.put(at + start, data[start:min(start + 48, match.end())])

    def make(self, data):
        self.new(len(data))
        self.change(0, data)
