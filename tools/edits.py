#!/usr/bin/env python3
"""A table of the must-fail edits, each with the first line of its own description.

    edits.py            prints the table
    edits.py --write    writes docs/EDITS.md
    edits.py --check    exit status 1 if docs/EDITS.md is not what --write would write

The lines before the first `file:` line of crates/CRATE/must-fail/NAME.edit are its description. An edit
without one is reported, exit status 1, and nothing is written.
"""
import pathlib
import sys

ROOT = pathlib.Path(__file__).resolve().parent.parent
PAGE = ROOT / 'docs' / 'EDITS.md'


def description(path):
    """The first line, or nothing where the edit begins at once."""
    for line in path.read_text(encoding='utf-8').split('\n'):
        if line.startswith('file:'):
            break
        if line.strip('# \t'):
            return line.strip('# \t')
    return ''


def main(arguments):
    if len(arguments) > 1 or set(arguments) - {'--write', '--check'}:
        print(__doc__.strip(), file=sys.stderr)
        return 2
    edits = [(path, description(path)) for path in sorted(ROOT.glob('crates/*/must-fail/*.edit'))]
    table = ['| Crate | Edit | What it makes wrong |', '|---|---|---|']
    table += ['| `%s` | `%s` | %s |' % (path.parts[-3], path.stem, text.replace('|', '\\|')) for path, text in edits]
    page = ['# The must-fail edits', '',
            '`tools/edits.py --write` makes this page from the edits, %d of them; `rt ci` makes each edit and sees that the check refuses it.' % len(edits), '']
    page = '\n'.join(page + table) + '\n'
    undescribed = [path for path, text in edits if not text]
    for path in undescribed:
        print('no description: %s' % path.relative_to(ROOT), file=sys.stderr)
    if not arguments:
        print('\n'.join(table))
    elif undescribed:
        pass
    elif arguments == ['--write']:
        PAGE.write_text(page, encoding='utf-8')
    elif not PAGE.exists() or PAGE.read_text(encoding='utf-8') != page:
        print('%s is not what the edits say: run tools/edits.py --write' % PAGE.relative_to(ROOT), file=sys.stderr)
        return 1
    return 1 if undescribed else 0


if __name__ == '__main__':
    sys.exit(main(sys.argv[1:]))
