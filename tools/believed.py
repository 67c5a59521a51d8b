#!/usr/bin/env python3
"""Which definitions of crates/*/specs have to be believed, and which are inner matter.

    believed.py            per file: definitions and lines, reached and not reached
    believed.py --list     the names too
    believed.py --check    exit status 1 if a file Inner*.antt has a definition that is reached,
                           or another file one that is not; ALLOWED below has the exceptions

A definition is reached if a contract of one of CALLS, or the statement of one of THEOREMS, names it,
or if a reached definition does, unless that is one of OPAQUE. Names are followed by the `use` lines, from crate to crate; files are
found by scanning. Types of the code (specs.declared) end the search, and so do the libraries. A name
that a definition binds as a variable is not followed there.

Lines are those of signatures, clauses, records and data types; comments and blank lines do not count.
"""
import pathlib
import re
import sys

ROOT = pathlib.Path(__file__).resolve().parent.parent

# The public calls: of these, `requires` and `ensures` are looked at.
CALLS = [
    'answers::open_file', 'answers::grid_named', 'answers::grid_numbered',
    'answers::file_entry', 'answers::grid_entry_named', 'answers::grid_entry_numbered',
    'grid::open_grid_named', 'grid::open_grid_numbered',
    'leaves::fill_leaf_named', 'leaves::fill_leaf_numbered',
    'walk::walk', 'rows::walk_records',
    'vdb::vdb_open_file', 'vdb::vdb_grid_named', 'vdb::vdb_grid_numbered',
    'vdb::vdb_file_entry', 'vdb::vdb_grid_entry_named', 'vdb::vdb_grid_entry_numbered',
    'vdb::vdb_open_grid_named', 'vdb::vdb_open_grid_numbered',
    'vdb::vdb_walk',
    'vdb::vdb_fill_leaf_named', 'vdb::vdb_fill_leaf_numbered',
    'vdb::vdb_fill_leaves_named', 'vdb::vdb_fill_leaves_numbered',
    'leaves::fill_leaves_named', 'leaves::fill_leaves_numbered',
    'origins::origins_named', 'origins::origins_numbered',
    'vdb::vdb_leaf_origins_named', 'vdb::vdb_leaf_origins_numbered',
    'vdb::vdb_layout',
    'reader::new', 'reader::read_u32', 'reader::read_i_vec3', 'reader::read_d_vec3', 'reader::read_string', 'reader::read_name',
    'reader::read_names', 'reader::read_versions',
]
# What C and Rust link has an export for each call of vdb.
CALLS += [call.replace('vdb::', 'vdb_c::') for call in CALLS if call.startswith('vdb::')]

# Theorems that a reader is pointed to, by crate and name: of these, the statement is looked at, with the
# parameters of the sections that it stands in. What is written of one function's proof, below proofs/FUNCTION/, is not searched.
THEOREMS = [
    'grid::listed', 'grid::covered', 'grid::apart', 'walk::demand3', 'walk::place-own', 'walk::row-22', 'rows::demand3-rows',
    'vdb::walks', 'vdb::walks-at-0', 'cases::cases',
]

# crate::name of definitions that are reached but not followed, each with its reason.
OPAQUE = {
    'grid::place_after': 'a name for a place; which words it has is nothing to believe, as the promises only compare it with itself',
}

# crate::name of definitions that --check lets stand where they are, each with its reason.
ALLOWED = {
    'grid::start_of': 'what place_after, a name for a place, is made of: it stands beside it',
}

NAME = r'(?:[^\s(){}.;,@"«»]+|«[^»]+»)'
SIGNATURE = re.compile(r'(?:(?:unfoldable|abbrev|axiom)\s+)*(?:pub\s+)?(' + NAME + r')(?:\s+\{[^}:]*\})?\s+:(?:\s|$)')
TYPE = re.compile(r'(?:pub\s+)?(record|data)\s+(' + NAME + ')')
USE = re.compile(r'(?:unfoldable\s+)?(pub\s+)?use\s+([^\s;{]+?)(?:\.\{([^}]*)\}|\s+as\s+([^\s;]+))?\s*$')
TOKEN = re.compile(r'"(?:\\.|[^"\\])*"|«[^»]*»|[^\s(){}.;,@"«»]+|[(){}.;,@]')
PUNCTUATION = set('(){}.;,@')
WORDS = set('data record deriving module where use mod pub package using open as unfoldable abbrev axiom unfold unfolding ruleset '
            'mutual infix infixl infixr elim let in do λ ∀ Type → : = _'.split())


class Trouble(Exception):
    pass


def code_of(line):
    """The line without its comment."""
    quoted = False
    for i, c in enumerate(line):
        if c == '"' and line[i - 1:i] != '\\':
            quoted = not quoted
        if not quoted and line.startswith('--', i) and line[i - 1:i] in ('', ' ', '(', ')', '{', '}', ';', ','):
            return line[:i].rstrip()
    return line.rstrip()


def depth_of(line):
    return len(line) - len(line.lstrip())


class Definition:
    """A declaration: its lines of code, and the heads of the sections `module _ (..) where` around it."""

    def __init__(self, module, name, kind, sections):
        self.module, self.name, self.kind, self.sections = module, name, kind, sections
        self.lines = []

    def label(self):
        return '%s::%s' % (self.module.crate, self.name)

    def constructors(self):
        found = [SIGNATURE.match(line.strip()) for line in self.lines[1:]] if self.kind == 'data' else []
        return [match.group(1) for match in found if match]

    def statement(self):
        """The signature, without the proof."""
        signature = [self.lines[0]]
        for line in self.lines[1:]:
            if depth_of(line) <= depth_of(self.lines[0]):
                break
            signature.append(line)
        return self.sections + signature


class Scope:
    """What names stand for: definitions of one's own, names and modules that `use` lines bring."""

    def __init__(self, crate):
        self.crate, self.exports, self.imports, self.aliases, self.passed = crate, {}, {}, {}, {}

    def use(self, text):
        match = USE.match(text)
        if not match:
            raise Trouble('crate %s: what does this line bring? %s' % (self.crate, text))
        passed, path, names, alias = match.groups()
        if names is None:
            self.aliases[alias or path.rsplit('.', 1)[-1]] = path
            return
        for item in filter(None, (item.strip() for item in names.split(','))):
            old, _, new = item.partition(' as ')
            below, _, last = old.rpartition('.')
            brought = path + ('.' + below if below else ''), last
            self.imports[new or last] = brought
            if passed:
                self.passed[new or last] = brought


class Module(Scope):
    """A file of specs/ or proofs/."""

    def __init__(self, crate, part, path, base):
        super().__init__(crate)
        self.part, self.path = part, path
        self.name = '.'.join(path.relative_to(base).with_suffix('').parts)
        self.definitions = []
        self.read([code_of(line) for line in path.read_text(encoding='utf-8').split('\n')])
        for definition in self.definitions:
            for name in [definition.name] + definition.constructors():
                self.exports.setdefault(name, definition)

    def read(self, lines):
        sections, header, current, comment = [], '', None, False
        for line in lines:
            text, depth = line.strip(), depth_of(line)
            if comment or text.startswith('{-'):
                comment = '-}' not in text
            elif not text:
                pass
            elif header or re.match(r'(?:(?:unfoldable|pub)\s+)*(?:use|module)\s', text):
                # a `use` line to its closing brace, the head of a section to its `where`
                header = (header + ' ' + text).strip()
                if header.startswith('module'):
                    if header.endswith('where'):
                        sections = [(d, head) for d, head in sections if d < depth or not header.startswith(text)]
                        sections.append((depth, header))
                        header, current = '', None
                elif header.count('{') == header.count('}'):
                    self.use(header)
                    header = ''
            elif not re.match(r'(?:pub\s+)?mod\s|infix', text):
                while sections and depth <= sections[-1][0]:
                    sections.pop()
                current = self.declared(text, depth, sections, current)
                if current is None and self.part == 'specs':
                    raise Trouble('%s: what is this line? %s' % (self.path, line))
                if current is not None:
                    current.lines.append(line)

    def declared(self, text, depth, sections, current):
        """The declaration that a line belongs to."""
        if depth != (sections[-1][0] + 2 if sections else 0):
            return current
        kind, signature = TYPE.match(text), SIGNATURE.match(text)
        if not kind and not signature:
            return current
        name = kind.group(2) if kind else signature.group(1)
        found = Definition(self, name.strip('«»'), kind.group(1) if kind else '', [head for _, head in sections])
        self.definitions.append(found)
        return found


def is_of_function(path, base):
    """Whether a file belongs to the proof of one function."""
    return base.name == 'proofs' and path.parent != base and path.name in ('Proof.antt', 'Answers.antt', 'Invariants.antt')


class Crates:
    def __init__(self, root):
        self.modules, self.sources = {}, {}
        for crate in sorted(path for path in (root / 'crates').iterdir() if path.is_dir()):
            for part in ('specs', 'proofs'):
                for path in sorted((crate / part).rglob('*.antt')):
                    if not is_of_function(path, crate / part):
                        module = Module(crate.name, part, path, crate / part)
                        self.modules[crate.name, part, module.name] = module
            self.sources[crate.name] = [path.read_text(encoding='utf-8') for path in sorted((crate / 'src').rglob('*.rt'))]

    def module_at(self, path):
        """The module that a path names, if it is one of ours."""
        match = re.match(r'Rattle\.([^.]+)\.(specs|proofs)\.(.+)$', path)
        return self.modules.get(match.groups()) if match else None

    def exported(self, path, name):
        module = self.module_at(path)
        if module is None:
            # a constructor behind its data type
            outer, _, last = path.rpartition('.')
            module, name = self.module_at(outer), last
        if module is None:
            return None
        return module.exports.get(name) or (self.exported(*module.passed[name]) if name in module.passed else None)

    def resolve(self, scope, words):
        """The definition that a dotted name stands for, if it is one of ours."""
        first = words[0]
        if len(words) == 1 or first in scope.imports or first in scope.exports:
            return scope.exports.get(first) or (self.exported(*scope.imports[first]) if first in scope.imports else None)
        if first in scope.aliases:
            return self.exported('.'.join([scope.aliases[first]] + words[1:-1]), words[-1])
        return self.exported('.'.join(words[:-1]), words[-1])


def tokens_of(lines):
    """Each token, and whether it follows the one before it without a space."""
    out = []
    for line in lines:
        end = -1
        for match in TOKEN.finditer(line):
            out.append((match.group(), match.start() == end))
            end = match.end()
    return out + [('', False)]


def names_in(lines):
    """The dotted names of a text, without projections and without the fields that a record is given."""
    tokens, out, i = tokens_of(lines), [], 0

    def dotted(i):
        return tokens[i][0] == '.' and tokens[i + 1][1] and tokens[i + 1][0] not in PUNCTUATION

    while i < len(tokens) - 1:
        token = tokens[i][0]
        if dotted(i):
            i += 2
            continue
        i += 1
        if token in PUNCTUATION or token in WORDS or token.startswith('"'):
            continue
        words = [token.strip('«»')]
        while dotted(i) and tokens[i][1]:
            words.append(tokens[i + 1][0].strip('«»'))
            i += 2
        if tokens[i][0] != '=' or not in_record(tokens[:i - 1]):
            out.append(words)
    return out


def in_record(tokens):
    """Whether what follows these tokens stands where a record's field is named."""
    last = tokens[-1][0] if tokens else ''
    return last == ';' or last == '{' and tokens[-2][0] == 'record'


def bound_in(definition, is_constructor):
    """The names that a definition binds as variables."""
    bound = set()
    for line in definition.sections + definition.lines:
        for group in re.findall(r'λ([^.]*)\.', line) + re.findall(r'[({]([^(){}:;=]+) : ', line) + re.findall(r'\blet ([^:=]+) [:=]', line):
            bound |= set(re.findall(NAME, re.sub(r' : [^()]*', ' ', group)))
        left, equals, _ = line.strip().partition(' = ')
        if left.split(' ')[0] == definition.name and (equals or line.endswith(' =')):
            bound |= {word for word in re.findall(NAME, left)[1:] if not is_constructor(word)}
    return bound


def contract_of(crates, call):
    """What names stand for in the source that has this function, and the clauses of its contract."""
    crate, name = call.split('::')
    for source in crates.sources.get(crate, []):
        head = re.search(r'^\s*pub (?:extern "C" )?fn %s\b.*?^\{' % re.escape(name), source, re.S | re.M)
        if head:
            scope = Scope(crate)
            for line in re.findall(r'^ghost (use [^;]*);', source, re.M):
                scope.use(' '.join(line.split()))
            clauses = re.findall(r'(?:requires|ensures)\*?\s*\{(.*?)\}\s*(?=requires|ensures|\{$)', head.group(), re.S)
            if not clauses or len(re.findall(r'\bfn\s', head.group())) != 1:
                raise Trouble('%s has no contract' % call)
            return scope, clauses
    raise Trouble('there is no public function %s' % call)


def theorem_of(crates, theorem):
    crate, name = theorem.split('::')
    found = [d for (c, part, _), module in crates.modules.items() if (c, part) == (crate, 'proofs')
             for d in module.definitions if d.name == name]
    if len(found) != 1:
        raise Trouble('crates/%s/proofs has %d theorems %s' % (crate, len(found), name))
    return found[0]


def reached_from(crates, calls, theorems):
    """The definitions reached, and the names that would lead to others but are bound where they stand."""
    reached, work, variables = set(), [], []

    def follow(scope, lines, bound, where):
        for words in names_in(lines):
            found = crates.resolve(scope, words)
            if found is not None and words[0] in bound:
                variables.append((found, '%s in %s' % (words[0], where)))
            elif found is not None and found not in reached:
                reached.add(found)
                work.append(found)

    for call in calls:
        follow(*contract_of(crates, call), set(), call)
    for theorem in theorems:
        found = theorem_of(crates, theorem)
        follow(found.module, found.statement(), {found.name}, theorem)
    while work:
        definition = work.pop()
        if '%s::%s' % (definition.module.crate, definition.name) in OPAQUE:
            continue
        scope = definition.module
        constructors = {name for d in scope.definitions for name in d.constructors()}
        constructors |= {name for name, (path, old) in scope.imports.items()
                         if (d := crates.exported(path, old)) is not None and d.name != old}
        follow(scope, definition.sections + definition.lines, bound_in(definition, constructors.__contains__), definition.label())
    roots = {theorem_of(crates, theorem) for theorem in theorems}
    return reached, sorted({text for found, text in variables if found not in reached | roots})


def main(arguments):
    if set(arguments) - {'--list', '--check'}:
        raise Trouble(__doc__.strip())
    crates = Crates(ROOT)
    reached, variables = reached_from(crates, CALLS, THEOREMS)
    totals, wrong = [0, 0, 0, 0], []
    print('%-42s %19s %19s' % ('', 'reached', 'not reached'))
    print('%-42s %12s %6s %12s %6s' % (('file',) + ('definitions', 'lines') * 2))
    for module in crates.modules.values():
        if module.part != 'specs' or not module.definitions:
            continue
        path, inner = str(module.path.relative_to(ROOT)), module.path.name.startswith('Inner')
        halves = [[d for d in module.definitions if (d in reached) == wanted] for wanted in (True, False)]
        row = [number for half in halves for number in (len(half), sum(len(d.lines) for d in half))]
        totals = [a + b for a, b in zip(totals, row)]
        print('%-42s %12d %6d %12d %6d' % (path, *row))
        for word, half in zip(('reached', 'not reached'), halves):
            if '--list' in arguments and half:
                print('    %s: %s' % (word, ', '.join(d.name for d in half)))
            if inner == (word == 'reached'):
                wrong += ['%s: %s is %s' % (path, d.name, word) for d in half if d.label() not in ALLOWED]
    print('%-42s %12d %6d %12d %6d' % ('all', *totals))
    alone = [d for d in reached_from(crates, CALLS, [])[0] if d.module.part == 'specs']
    print('%-42s %12d %6d' % ('of these from the calls alone', len(alone), sum(len(d.lines) for d in alone)))
    outside = sorted('%s (%s)' % (d.name, d.module.path.relative_to(ROOT)) for d in reached if d.module.part != 'specs')
    if outside:
        print('reached outside specs/: ' + ', '.join(outside))
    if variables:
        print('taken for variables: ' + ', '.join(variables))
    if '--check' not in arguments:
        return 0
    labels = {d.label() for module in crates.modules.values() for d in module.definitions}
    wrong += ['ALLOWED names %s, which there is not' % label for label in ALLOWED if label not in labels]
    for line in wrong:
        print(line, file=sys.stderr)
    return 1 if wrong else 0


if __name__ == '__main__':
    try:
        sys.exit(main(sys.argv[1:]))
    except Trouble as trouble:
        print(trouble, file=sys.stderr)
        sys.exit(2)
