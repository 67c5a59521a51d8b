#!/usr/bin/env python3
"""The Rust's answers about the stored clouds, kept as text in answers/: tools/questions takes them from there.

    answers.py DUMP FILE ..              the kept texts with what DUMP prints now; exit status 1 if one is otherwise
    answers.py DUMP --write FILE ..      writes them anew

A text is the dumper's, shortened by canonical.py, behind a line that says how it was made and of which bytes.
"""
import hashlib
import os
import sys

import rows  # and with it the directory above

import canonical

HERE = os.path.dirname(os.path.abspath(__file__))
MADE = '# vdb-rs at commit 778643d09f, with overflow checks, by compare/rust/answers.py; SHA-256 of %s: %s\n'


def place(name):
    return os.path.join(HERE, 'answers', name + '.txt')


def head(name, data):
    return MADE % (name + '.vdb', hashlib.sha256(data).hexdigest())


def kept(name, data):
    """The kept text about these bytes, nothing where there is none."""
    if not os.path.exists(place(name)):
        return ''
    with open(place(name), encoding='ascii') as file:
        first, text = file.readline(), file.read()
    return text if first == head(name, data) else ''


def main(dump, *words):
    status = 0
    for path in words[words[0] == '--write':]:
        name = os.path.splitext(os.path.basename(path))[0]
        with open(path, 'rb') as file:
            data = file.read()
        text = canonical.shortened(rows.dumped(dump, path))
        if words[0] == '--write':
            with open(place(name), 'w', encoding='ascii') as file:
                file.write(head(name, data) + text)
        elif text != kept(name, data):
            print('%s: the Rust says otherwise than answers/%s.txt, or that is of other bytes' % (path, name))
            status = 1
    print('%d clouds' % len(words[words[0] == '--write':]))
    return status


if __name__ == '__main__':
    sys.exit(main(*sys.argv[1:]))
