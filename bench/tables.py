"""Prints the figures of a run: as Markdown, or with the columns laid out for a terminal."""
import statistics

KINDS = [('fog', '4'), ('levelset', '4'), ('fog', '2'), ('levelset', '2')]
NAMES = {'fog': 'fog', 'levelset': 'level set', '4': 'floats', '2': 'halves'}
HOSTILE = {'ends': '64 names, each nearly the whole file, alike but for their ends', 'middle': 'the same, alike but for their middle',
           'metadata': '64 grids over one metadata of the whole file', 'empty': '77,824 leaves, of which only the last has an active voxel'}


class Figures:
    """The times of all clouds, each taken as one statistic of its repetitions. `clock` is 0 for the one on the wall, 1 for processor time."""

    def __init__(self, clouds, statistic, clock):
        found = {(c['kind'], c['width'], int(c['size'])): c for c in clouds}
        self.clouds = {c: found[c] for c in sorted(found, key=lambda c: (KINDS.index(c[:2]), c[2]))}
        self.statistic = statistic
        self.clock = clock

    def ms(self, cloud, *names):
        """A sum of times, None where one was not measured."""
        times = [self.clouds[cloud]['times'].get(name) for name in names]
        return sum(self.statistic([t[self.clock] for t in ts]) for ts in times) if all(times) else None

    def number(self, cloud, name):
        return self.clouds[cloud]['numbers'][name]

    def ns_a_record(self, cloud, name):
        return self.ms(cloud, name) * 1e6 / self.number(cloud, 'records')

    def ns_a_leaf(self, cloud):
        return self.ms(cloud, 'fill_leaves') * 1e6 / self.number(cloud, 'leaves')

    def ours_from_file(self, cloud):
        """Opening, walking and adding up, by the faster of two ways: with the file read, and with the file mapped."""
        return min(self.ms(cloud, way) for way in ('whole_read', 'whole_mapped'))

    def in_slots(self, cloud):
        """Opening and walking from memory: every record stood in a slot once, and nobody added it up."""
        return self.ms(cloud, 'open', 'walk_4096')

    def openvdb(self, cloud):
        """Reading, and visiting the active values by the faster of the two ways."""
        return min(self.ms(cloud, 'openvdb_read', way) for way in ('openvdb_iterate', 'openvdb_by_leaves'))

    def rust(self, cloud):
        return self.ms(cloud, 'rust_read', 'rust_iterate')

    def growth(self, cloud, *names):
        """What a byte costs in the cloud of 100 MB over what it costs in the one of 10 MB."""
        kind, width, _ = cloud
        large, small = (self.ms((kind, width, size), *names) / self.number((kind, width, size), 'bytes') for size in (100, 10))
        return large / small


def over(a, b):
    return None if a is None or b is None else a / b


def shown(value):
    if value is None:
        return ''
    if isinstance(value, str):
        return value
    if isinstance(value, int):
        return f'{value:,}'
    return f'{value:,.{0 if value >= 100 else 1 if value >= 10 else 2 if value >= 0.1 else 3}f}'


def print_table(head, rows, markdown):
    rows = [[shown(cell) for cell in row] for row in rows]
    if markdown:
        print('| ' + ' | '.join(head) + ' |')
        print('|---' + '|---:' * (len(head) - 1) + '|')
        for row in rows:
            print('| ' + ' | '.join(row) + ' |')
    else:
        widths = [max(map(len, column)) for column in zip(head, *rows)]
        for row in [head] + rows:
            print('  '.join(cell.rjust(w) if i else cell.ljust(w) for i, (cell, w) in enumerate(zip(row, widths))).rstrip())
    print()


def name_of(cloud):
    kind, width, size = cloud
    return f'{NAMES[kind]}, {NAMES[width]}, {size} MB'


def opening(f):
    head = ['Cloud', 'bytes', 'leaves', 'records', 'memcpy, ms', 'opening, ms', 'least, ms', 'opening / memcpy', 'least / memcpy',
            'opening, huge pages, ms', 'opening / memcpy, both in huge pages']
    return head, [[name_of(c), f.number(c, 'bytes'), f.number(c, 'leaves'), f.number(c, 'records'), f.ms(c, 'memcpy'), f.ms(c, 'open'),
                   f.ms(c, 'least'), f.ms(c, 'open') / f.ms(c, 'memcpy'), over(f.ms(c, 'least'), f.ms(c, 'memcpy')),
                   f.ms(c, 'open_huge'), f.ms(c, 'open_huge') / f.ms(c, 'memcpy_huge')] for c in f.clouds]


def walking(f):
    head = ['ns a record', '64 slots', '4,096', 'all', 'loop, 4,096', 'loop, all', '4,096 / loop', 'all / loop']
    rows = []
    for c in f.clouds:
        few, some, every, loop_some, loop_every = (f.ns_a_record(c, n) for n in ('walk_64', 'walk_4096', 'walk_all', 'loop_4096', 'loop_all'))
        rows.append([name_of(c), few, some, every, loop_some, loop_every, some / loop_some, every / loop_every])
    return head, rows


def readers(f):
    head = ['ms', 'ours', 'with the file read', 'with the file mapped', 'OpenVDB: read', 'iterator', 'leaf by leaf', 'Rust: read', 'iterator',
            'OpenVDB / ours, both from the file', 'Rust / ours, both from memory']
    names = ('whole', 'whole_read', 'whole_mapped', 'openvdb_read', 'openvdb_iterate', 'openvdb_by_leaves', 'rust_read', 'rust_iterate')
    return head, [[name_of(c)] + [f.ms(c, name) for name in names] + [over(f.openvdb(c), f.ours_from_file(c)), over(f.rust(c), f.ms(c, 'whole'))]
                  for c in f.clouds]


def leaves(f):
    head = ['ms', 'one leaf, in the middle', 'the last one', 'all leaves', 'all, ns a leaf', 'memcpy of the slots', 'all / memcpy', 'OpenVDB', 'Rust', 'OpenVDB / ours', 'Rust / ours', 'origins of all leaves']
    rows = []
    for c in f.clouds:
        every, other, rust = f.ms(c, 'fill_leaves'), f.ms(c, 'openvdb_read', 'openvdb_leaf_values'), f.ms(c, 'rust_read', 'rust_leaf_values')
        copied = f.ms(c, 'memcpy_slots')
        rows.append([name_of(c), f.ms(c, 'fill_leaf'), f.ms(c, 'fill_last'), every, f.ns_a_leaf(c), copied, every / copied, other, rust,
                     over(other, every), over(rust, every), f.ms(c, 'leaf_origins')])
    return head, rows


def growing(f):
    whats = [('memcpy', ['memcpy']), ('opening', ['open']), ('walking, 4,096 slots', ['walk_4096']), ('opening, walking, adding up', ['whole']),
             ('all leaves', ['fill_leaves']), ('OpenVDB', ['openvdb_read', 'openvdb_iterate']), ('Rust', ['rust_read', 'rust_iterate'])]
    sizes = sorted({size for _, _, size in f.clouds})
    head = ['ns a byte'] + [f'{size} MB' for size in sizes] + [f'{b} MB / {a} MB' for a, b in zip(sizes, sizes[1:])]
    rows = []
    for kind, width in KINDS:
        for what, names in whats:
            costs = [over(f.ms((kind, width, s), *names), f.number((kind, width, s), 'bytes') / 1e6) for s in sizes]
            rows.append([f'{NAMES[kind]}, {NAMES[width]}: {what}'] + costs + [over(b, a) for a, b in zip(costs, costs[1:])])
    return head, rows


def verdict(value, limit, least=False):
    if value is None:
        return 'not measured'
    return f'{shown(value)}, ' + ('reached' if (value >= limit if least else value <= limit) else 'missed')


def targets(f):
    """Over the clouds of 100 MB: each target, and for each kind of cloud the figure and whether it is reached."""
    large = [(kind, width, 100) for kind, width in KINDS]

    def row(name, limit, figure, least=False):
        return [name, ('at least ' if least else 'at most ') + shown(limit)] + [verdict(figure(c), limit, least) for c in large]

    def bare(name, figure):
        return [name, ''] + [shown(figure(c)) for c in large]

    def opened(c):
        return f.ms(c, 'open') / f.ms(c, 'memcpy')

    def filled(c):
        return f.ms(c, 'fill_leaves') / f.ms(c, 'memcpy_slots')

    def for_floats(name, limit, figure):
        found = row(name + ' (for floats)', limit, figure)
        found[4:] = [shown(figure(c)) for c in large[2:]]
        return found

    halves = row('a leaf of halves / a leaf of floats, all in one call', 1.5, lambda c: f.ns_a_leaf(c) / f.ns_a_leaf((c[0], '4', 100)))
    halves[2:4] = ['', '']
    return ['Target', 'limit'] + [f'{NAMES[kind]}, {NAMES[width]}' for kind, width in KINDS], [
        for_floats('opening / memcpy', 0.25, opened),
        bare('for comparison: the least that opening can cost / memcpy', lambda c: over(f.ms(c, 'least'), f.ms(c, 'memcpy'))),
        row('OpenVDB / ours, both from the file, records added up', 20, lambda c: over(f.openvdb(c), f.ours_from_file(c)), True),
        row('OpenVDB / ours from memory, records in slots, not added up', 20, lambda c: over(f.openvdb(c), f.in_slots(c)), True),
        row('Rust / ours, both from memory, records added up', 20, lambda c: over(f.rust(c), f.ms(c, 'whole')), True),
        row('Rust / ours, both from memory, records in slots, not added up', 20, lambda c: over(f.rust(c), f.in_slots(c)), True),
        bare('for comparison: OpenVDB / the plain loop alone', lambda c: over(f.openvdb(c), f.ms(c, 'loop_4096'))),
        bare('for comparison: Rust / the plain loop alone', lambda c: over(f.rust(c), f.ms(c, 'loop_4096'))),
        row('a record / the plain loop, 4,096 slots', 3, lambda c: f.ms(c, 'walk_4096') / f.ms(c, 'loop_4096')),
        row('a record / the plain loop, all slots', 3, lambda c: f.ms(c, 'walk_all') / f.ms(c, 'loop_all')),
        row('passing all leaves: (filling the last leaf - opening) / opening', 1.1, lambda c: f.ms(c, 'fill_last') / f.ms(c, 'open') - 1),
        for_floats('all leaves in one call / memcpy of as many bytes as the slots have', 2.0, filled),
        halves,
        row('opening: a byte at 100 MB / at 10 MB', 1.2, lambda c: f.growth(c, 'open')),
        row('walking, 4,096 slots: the same', 1.2, lambda c: f.growth(c, 'walk_4096')),
        row('opening, walking, adding up: the same', 1.2, lambda c: f.growth(c, 'whole')),
    ]


def hostile(figures, statistic, clock):
    """Opening the files that are made to cost as much as they can."""
    def ms(cloud, name):
        return statistic([time[clock] for time in cloud['times'][name]])

    def grid(cloud, name):
        return ms(cloud, name) if name in cloud['times'] else None

    return ['File', 'bytes', 'memcpy, ms', 'opening the file, ms', 'opening / memcpy', 'opening its grid, ms', 'the first record, ms'], [
        [HOSTILE[c['name']], c['bytes'], ms(c, 'memcpy'), ms(c, 'open_file'), ms(c, 'open_file') / ms(c, 'memcpy'), grid(c, 'open_grid'), grid(c, 'walk_1')]
        for c in figures['hostile']]


def costs(figures):
    rows = [['text', figures['sizes']['text']], ['read-only data', figures['sizes']['rodata']]]
    names = {'open_file': 'opening a file', 'grid': 'a descriptor', 'entry': 'a metadata entry', 'open': 'opening a grid', 'walk': 'a walk call',
             'fill': 'filling a leaf', 'fills': 'filling a run of leaves'}
    return ['Bytes', ''], rows + [['stack: ' + names[key.split('_', 1)[1]], n] for key, n in figures['stack'].items()]


def counted(figures):
    f = Figures(figures['clouds'], statistics.median, 0)
    rows = []
    for counts in figures['instructions']:
        kind, size, width = counts['cloud'].split('_')
        cloud = (kind, width, int(size))
        rows.append([name_of(cloud), counts['open'] / f.number(cloud, 'leaves'), counts['walk'] / f.number(cloud, 'records')])
    return ['Instructions', 'opening, a leaf', 'walking with 4,096 slots, a record'], rows


def left(figures):
    return ['Function', 'calls'], [[name, ', '.join(targets)] for name, targets in figures['calls'].items()]


def agreement(figures):
    """Whether all readers read the same."""
    lines = [f'DISAGREEMENT over {name_of((c["kind"], c["width"], int(c["size"])))}: {line}' for c in figures['clouds'] for line in c['disagreements']]
    readers_there = 'our reader, OpenVDB and the Rust' if 'rust_read' in figures['clouds'][0]['times'] else 'our reader and OpenVDB (the Rust was left out)'
    return lines or [f'Over each cloud {readers_there} gave the same number of leaves and of records, and the same two sums over all records.']


def beside(figures):
    cores = figures['beside']
    return f'Measured beside other work, which took {cores:.2f} cores.' if cores > 0.1 else f'The machine had no other work ({cores:.2f} cores).'


def show(figures, markdown, processor):
    medians, lowest = (Figures(figures['clouds'], statistic, int(processor)) for statistic in (statistics.median, min))
    heading = '### ' if markdown else '== '

    def part(title, table):
        print(heading + title + '\n')
        print_table(*table, markdown)

    print(('## ' if markdown else '') + f'Measured {figures["date"]} at {figures["commit"]}\n')
    print(f'{beside(figures)} {figures["processor"]}. {figures["system"]}. Measuring took {figures["minutes"]:.1f} minutes.'
          f' Times are {"processor time" if processor else "by the clock on the wall"}.\n')
    print('\n'.join(agreement(figures)) + '\n')
    if any(size == 100 for _, _, size in medians.clouds):
        part('Targets, by medians', targets(medians))
        part('Targets, by the lowest time of each', targets(lowest))
    part('Opening a grid', opening(medians))
    part('Walking', walking(medians))
    part('Opening, walking everything, adding up the records', readers(medians))
    part('Leaf values', leaves(medians))
    part('Growth with the size of the file', growing(medians))
    part('Opening hostile files', hostile(figures, statistics.median, int(processor)))
    part('Size of the library, stack', costs(figures))
    part('Instructions', counted(figures))
    part('Calls that the compiler left in the library', left(figures))
