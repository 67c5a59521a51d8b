#!/usr/bin/env python3
"""The functions that the library exports must be those that C and Rust are told of: a linker looks at their names alone.

    signatures.py [ROOT]    ROOT is the repository, if it is not the one of this file; exit status 1 where something differs

Compared are crates/vdb_c/src/lib.rt, include/vdb.h, bindings/rust/src/sys.rs and crates/words/src/lib.rt:

- the functions, and of each the names, order and types of its parameters. A slice crosses as a pointer and a length, `&mut [u64; N]` as an array of N
  words, in the header of as many as a constant there says. sys.rs may leave functions out;
- the constants of sys.rs, which are the header's without VDB_;
- the number of the layout, which crates/words/src/lib.rt says too; and that each function of sys.rs asks for it before it calls another one;
- the arguments that sys.rs hands over: each pointer before its own length, each array with the constant that the header has.

Then faults are put into copies of these texts, one at a time: each must be noticed.
"""
import pathlib
import re
import sys

LIBRARY, HEADER, RUST, WORDS = 'crates/vdb_c/src/lib.rt', 'include/vdb.h', 'bindings/rust/src/sys.rs', 'crates/words/src/lib.rt'
# Names that the header has in place of the library's and of the Rust's own.
IN_LIBRARY, IN_RUST = {'s': 'file', 'number': 'leaf'}, {'len': 'file_len'}
C_TYPES = {'uint8_t': 'u8', 'uint32_t': 'u32', 'uint64_t': 'u64', 'int32_t': 'i32', 'size_t': 'usize'}


class Wrong(Exception):
    """What differs, or is written otherwise than this script can read."""


def must(holds, *words):
    if not holds:
        raise Wrong(' '.join(map(str, words)))


def taken(pattern, text, *words):
    """The groups of a text that must be of a form as a whole."""
    match = re.fullmatch(pattern, ' '.join(text.split()))
    must(match, *words, 'not understood:', text.strip())
    return match.groups()


def parts(text):
    """What stands between the commas."""
    return [part.strip() for part in text.split(',') if part.strip()]


def by_name(found, where):
    """Functions by name; none comes twice."""
    names = [name for name, _ in found]
    must(found and len(names) == len(set(names)), where, 'has no function, or one twice')
    return dict(found)


# A signature is a list of parameters: name, type, and for an array its length.

def of_library(text):
    """What crosses, by the library's text."""
    text = re.sub(r'//[^\n]*', '', text)
    found = []
    for name, given, result in re.findall(r'#\[unsafe\(no_mangle\)\]\s*pub extern "C" fn (\w+)\s*\(([^)]*)\)\s*->\s*(\w+)', text):
        crossing = []
        for parameter in filter(None, re.split(r',\s*(?=\w+\s*:)', given.strip().rstrip(','))):
            own, reference, changed, element, length, plain = taken(
                r'(\w+): (?:(&)(mut )?\[(\w+)(?:; (\d+))?\]|(\w+))', parameter, LIBRARY, name)
            called = IN_LIBRARY.get(own, own)
            if not reference:
                crossing.append((called, plain, None))
            elif length:
                must(changed, LIBRARY, name, own, 'is an array that is only read')
                crossing.append((called, '*mut ' + element, int(length)))
            else:
                crossing += [(called, ('*mut ' if changed else '*const ') + element, None), (called + '_len', 'usize', None)]
        found.append((name, (crossing, result)))
    must(len(found) == len(re.findall(r'no_mangle', text)) == len(re.findall(r'extern\s+"C"', text)), LIBRARY, 'has a function that was not understood')
    return by_name(found, LIBRARY)


def constants(text):
    """The header's constants: a value is a number, or a sum of names and numbers."""
    found = {}
    for body in re.findall(r'enum\s*\{([^}]*)\}', text):
        value = -1
        for item in parts(body):
            name, words = taken(r'(\w+)(?: = ([\w +]+))?', item, HEADER)
            value = value + 1 if words is None else sum(int(word) if word.isdigit() else found[word] for word in words.split(' + '))
            must(name not in found, HEADER, name, 'twice')
            found[name] = value
    return found


def of_header(text):
    """The functions, of each array which constant is its length, and the constants."""
    text = re.sub(r'/\*.*?\*/', '', text, flags=re.DOTALL)
    numbers, found, lengths = constants(text), [], {}
    for result, name, given in re.findall(r'(\w+)\s+(\w+)\s*\(([^)]*)\)\s*;', text):
        crossing = []
        for parameter in parts(given.replace('void', '')):
            constant, kind, pointer, called, length = taken(r'(const )?(\w+) ?(\*)? ?(\w+)(?:\[(\w+)\])?', parameter, HEADER, name)
            must(kind in C_TYPES, HEADER, name, called, 'is of an unknown type')
            shape = '' if not pointer and not length else '*const ' if constant else '*mut '
            if length:
                lengths[name, called] = length
                must(length in numbers, HEADER, name, called, 'has an unknown length')
            crossing.append((called, shape + C_TYPES[kind], numbers[length] if length else None))
        found.append((name, (crossing, C_TYPES.get(result, result))))
    must(len(found) == len(re.findall(r'\bvdb_\w+\s*\(', text)), HEADER, 'has a function that was not understood')
    return by_name(found, HEADER), lengths, numbers


def declared(text):
    """What sys.rs declares. A pointer tells no length there."""
    block = text[text.index('mod c {'):text.index('\n}\n')]
    found = []
    for name, given, result in re.findall(r'fn (\w+)\s*\(([^)]*)\)\s*->\s*(\w+);', block):
        pairs = [taken(r'(\w+): ([\w* ]+)', parameter, RUST, name) for parameter in parts(given)]
        found.append((name, ([(IN_RUST.get(called, called), kind) for called, kind in pairs], result)))
    must(len(found) == len(re.findall(r'\bfn\b', block)), RUST, 'has a function that was not understood')
    return by_name(found, RUST)


def resolved(argument, short):
    """What an argument is: the pointer of something, its length, or a number."""
    argument = short.get(argument, argument)
    thing, how = taken(r'(\w+)(?:\.(as_ptr|as_mut_ptr|len)\(\))?', argument, RUST)
    return thing, how


def handed_over(text, header, lengths):
    """Which functions sys.rs calls; each argument must be what the header has at its place."""
    called = set()
    for whole in re.findall(r'^(?:pub )?fn .*?^\}', text, flags=re.DOTALL | re.MULTILINE):
        held = dict(re.findall(r'(\w+): &mut \[u64; (\w+)\]', whole))
        short = {}
        for names, values in re.findall(r'let \(([^()]*)\) = \((.*?)\);', whole):
            short.update(zip(parts(names.replace('mut ', '')), parts(values)))
        for name, value in [*re.findall(r'let mut (\w+) = (\[0; \w+\]);', whole), *short.items()]:
            held.update({name: constant for constant in re.findall(r'^\[0; (\w+)\]$', value)})
        calls = re.findall(r'c::(\w+)\(((?:[^()]|\(\))*)\)', whole)
        asks = re.search(r'\{\n    same_layout\(\)\?;\n', whole)
        must(asks or all(name == 'vdb_layout' for name, _ in calls), RUST, 'calls before it asks for the layout:', whole.split('(')[0])
        for name, given in calls:
            must(name in header, RUST, 'calls', name)
            called.add(name)
            known = {parameter for parameter, _, _ in header[name][0]}
            arguments = [resolved(argument, short) for argument in parts(given)]
            must(len(arguments) == len(header[name][0]), RUST, name, 'has another number of arguments')
            before = None
            for (thing, how), (parameter, kind, length) in zip(arguments, header[name][0]):
                words = RUST, name, parameter, 'is given', thing, how
                if kind == 'usize':
                    must(how == 'len' and thing == before, *words)
                    continue
                must(how == {'*c': 'as_ptr', '*m': 'as_mut_ptr'}.get(kind[:2]), *words)
                must(thing == parameter or thing not in known, *words)
                must(length is None or 'VDB_' + held.get(thing, '') == lengths[name, parameter], *words)
                before = thing
    must(len(re.findall(r'\bc::vdb_', text)) == len(re.findall(r'c::(\w+)\(((?:[^()]|\(\))*)\)', text)), RUST, 'has a call that was not understood')
    return called


def compared(library_text, header_text, rust_text, words_text):
    """How many functions the three have, and sys.rs; Wrong where they differ."""
    library, (header, lengths, numbers) = of_library(library_text), of_header(header_text)
    must(list(library) == list(header), 'not the same functions:', *(set(library) ^ set(header) or ['in another order']))
    for name in library:
        must(library[name] == header[name], name, '\n  library:', library[name], '\n  header: ', header[name])
    rust = declared(rust_text)
    for name, (given, result) in rust.items():
        must(name in header, RUST, 'declares', name)
        expected = [parameter[:2] for parameter in header[name][0]], header[name][1]
        must((given, result) == expected, name, '\n  sys.rs:', (given, result), '\n  header:', expected)
    own = {'VDB_' + name: int(number) for name, number in re.findall(r'^pub const (\w+): usize = (\d+);', rust_text, flags=re.MULTILINE)}
    must(set(own) == set(lengths.values()), RUST, 'has other constants than the arrays of the header:', *sorted(set(own) ^ set(lengths.values())))
    for name, number in own.items():
        must(numbers[name] == number, RUST, name, 'is', number, 'and in the header', numbers[name])
    layouts = {int(number) for text in (rust_text, words_text) for number in re.findall(r'const LAYOUT: u32 = (\d+);', text)}
    must(layouts == {numbers['VDB_LAYOUT']}, 'the layout is', *layouts, 'and in the header', numbers['VDB_LAYOUT'])
    must(handed_over(rust_text, header, lengths) == set(rust), RUST, 'declares what it does not call')
    return len(library), len(rust)


# In which of them, a text that stands there, and what takes its place the first time that it stands there.
FAULTS = [
    (LIBRARY, 'fn vdb_grid_named', 'fn vdb_grid_called'),
    (LIBRARY, 'out: &mut [u64; 8]', 'out: &mut [u64; 9]'),
    (LIBRARY, 'place: &mut [u64; 40]', 'place: &mut [u64; 39]'),
    (LIBRARY, 'counts: &mut [u64; 2]', 'counts: &mut [u32; 2]'),
    (LIBRARY, 'grid: &[u8],\n    name: &[u8],', 'name: &[u8],\n    grid: &[u8],'),
    (LIBRARY, 'x: &mut [i32],\n    y: &mut [i32],', 'y: &mut [i32],\n    x: &mut [i32],'),
    (LIBRARY, 'x: &mut [i32]', 'x: &mut [u32]'),
    (LIBRARY, 'x: &mut [i32]', 'x: &[i32]'),
    (LIBRARY, 'n: u32, out', 'n: u64, out'),
    (LIBRARY, 'number: u64', 'n: u64'),
    (LIBRARY, 'n: u32, number: u64', 'number: u64, n: u32'),
    (LIBRARY, ') -> u32', ') -> u64'),
    (LIBRARY, '#[unsafe(no_mangle)]\n', ''),
    (LIBRARY, '#[unsafe(no_mangle)]\n', '#[unsafe(no_mangle)]\npub extern "C" fn vdb_more(s: &[u8]) -> u32\n{\n    0\n}\n#[unsafe(no_mangle)]\n'),
    (WORDS, 'const LAYOUT: u32 = 1', 'const LAYOUT: u32 = 2'),
    (HEADER, 'VDB_LAYOUT = 1', 'VDB_LAYOUT = 2'),
    (HEADER, 'vdb_layout(void)', 'vdb_layout(uint32_t n)'),
    (HEADER, 'vdb_file_entry(', 'vdb_entry('),
    (HEADER, 'uint32_t vdb_walk(', 'int32_t vdb_walk('),
    (HEADER, 'VDB_PLACE_WORDS = 40', 'VDB_PLACE_WORDS = 41'),
    (HEADER, 'VDB_OPENED_WORDS = 32', 'VDB_OPENED_WORDS = 31'),
    (HEADER, '    VDB_FILE_PACKED,', ''),
    (HEADER, 'out[VDB_GRID_WORDS]', 'out[VDB_FILE_WORDS]'),
    (HEADER, 'int32_t *x, size_t x_len, int32_t *y, size_t y_len', 'int32_t *y, size_t y_len, int32_t *x, size_t x_len'),
    (HEADER, 'const uint8_t *grid, size_t grid_len, const uint8_t *name, size_t name_len',
     'const uint8_t *name, size_t name_len, const uint8_t *grid, size_t grid_len'),
    (HEADER, 'uint32_t *level, size_t level_len', 'uint32_t *level'),
    (HEADER, 'uint64_t leaf', 'uint32_t leaf'),
    (HEADER, 'uint64_t leaf', 'uint64_t number'),
    (HEADER, 'const uint8_t *name', 'uint8_t *name'),
    (HEADER, 'size_t file_len', 'uint32_t file_len'),
    (RUST, 'const LAYOUT: u32 = 1', 'const LAYOUT: u32 = 2'),
    (RUST, '    same_layout()?;\n', ''),
    (RUST, 'pub fn vdb_walk', 'pub fn vdb_walks'),
    (RUST, 'PLACE_WORDS: usize = 40', 'PLACE_WORDS: usize = 39'),
    (RUST, 'out: *mut u64, place: *mut u64', 'place: *mut u64, out: *mut u64'),
    (RUST, 'x: *mut i32,\n            x_len: usize,\n            y: *mut i32,\n            y_len: usize,',
     'y: *mut i32,\n            y_len: usize,\n            x: *mut i32,\n            x_len: usize,'),
    (RUST, 'n: u32, out', 'n: usize, out'),
    (RUST, 'leaf: u64,', 'leaf: u32,'),
    (RUST, 'file: *const u8', 'file: *mut u8'),
    (RUST, 'out: *mut u64) -> u32', 'out: *mut u64) -> u64'),
    (RUST, 'let mut out = [0; FILE_WORDS]', 'let mut out = [0; ENTRY_WORDS]'),
    (RUST, '([0; OPENED_WORDS], [0; PLACE_WORDS])', '([0; PLACE_WORDS], [0; OPENED_WORDS])'),
    (RUST, 'name.len(), o, p)', 'name.len(), p, o)'),
    (RUST, 'place: &mut [u64; PLACE_WORDS]', 'place: &mut [u64; GRID_WORDS]'),
    (RUST, 'y.len(),\n            z.as_mut_ptr(),\n            z.len(),', 'z.len(),\n            z.as_mut_ptr(),\n            y.len(),'),
    (RUST, 'x.as_mut_ptr(),\n            x.len(),\n            y.as_mut_ptr(),\n            y.len(),',
     'y.as_mut_ptr(),\n            y.len(),\n            x.as_mut_ptr(),\n            x.len(),'),
    (RUST, 'grid.as_ptr(), grid.len(), name.as_ptr(), name.len()', 'name.as_ptr(), name.len(), grid.as_ptr(), grid.len()'),
]


def not_noticed(texts):
    """The faults that the comparison does not show."""
    for path, old, new in FAULTS:
        must(old in texts[path], path, 'has no longer the text that a fault is put in place of:', old)
        try:
            compared(*dict(texts, **{path: texts[path].replace(old, new, 1)}).values())
        except Wrong:
            continue
        yield '%s: %s' % (path, new)


def main(root):
    texts = {path: (root / path).read_text(encoding='utf-8') for path in (LIBRARY, HEADER, RUST, WORDS)}
    try:
        counts = compared(*texts.values())
        missed = list(not_noticed(texts))
    except Wrong as wrong:
        print('FAILED: signatures: %s' % wrong)
        return 1
    for fault in missed:
        print('FAILED: signatures: a fault that is not noticed: ' + fault)
    if not missed:
        print('ok: signatures: %d functions of the library are those of the header, %d those of sys.rs; ' % counts
              + '%d faults noticed' % len(FAULTS))
    return 1 if missed else 0


if __name__ == '__main__':
    sys.exit(main(pathlib.Path(sys.argv[1]) if len(sys.argv) > 1 else pathlib.Path(__file__).resolve().parents[2]))
