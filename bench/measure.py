"""Runs the programs of the build directory in turn over the clouds, keeps all figures in figures.json, and prints the tables.

    measure.py BUILD [--markdown] [--last] [--short] [--processor]
"""
import collections
import datetime
import json
import os
import pathlib
import re
import resource
import subprocess
import sys
import time

import tables

# Rounds, and repetitions a round, for each size in megabytes. In a round each program runs once, one after the other.
ROUNDS = {1: (7, 9), 10: (5, 5), 100: (4, 2)}
HOSTILE = 3, 3


def lines_of(command):
    return subprocess.run(command, check=True, capture_output=True, text=True).stdout.splitlines()


def first_line(*command):
    return lines_of(command)[0].strip()


def parts_of(path):
    kind, size, width = path.stem.split('_')
    return int(size), width != '4', kind


class Cloud:
    def __init__(self, path):
        self.kind, self.size, self.width = path.stem.split('_')
        self.times = collections.defaultdict(list)
        self.numbers = {}
        self.disagreements = []

    def take(self, program, lines):
        """The lines that a program printed. A number that was printed before, by whatever program, must be the same."""
        for line in lines:
            what, name, *values = line.split()
            if what == 'time':
                self.times[name].append([float(value) for value in values])
            elif self.numbers.setdefault(name, int(values[0])) != int(values[0]):
                self.disagreements.append(f'{program}: {name} is {values[0]}, not {self.numbers[name]}')


def measure(path, programs):
    cloud = Cloud(path)
    rounds, repetitions = ROUNDS[int(cloud.size)]
    for number in range(rounds):
        print(f'bench: {path.name}, round {number + 1} of {rounds}', file=sys.stderr)
        for program in programs:
            if program.name == 'least' and cloud.width != '4':
                continue
            cloud.take(program.name, lines_of([program, path, str(repetitions)]))
    # Inactive places of a level set hold its background, and zero in the Rust (docs/DIFFERENCES.md, D38).
    if cloud.kind == 'fog' and cloud.numbers.get('rust_leaf_sum', cloud.numbers['leaf_sum']) != cloud.numbers['leaf_sum']:
        cloud.disagreements.append('rust: another sum over the leaf values')
    return vars(cloud)


def processor_seconds():
    """Of all processors since the start of the machine, without idling."""
    user, nice, system, _, _, irq, soft, stolen = map(int, first_line('cat', '/proc/stat').split()[1:9])
    return (user + nice + system + irq + soft + stolen) / os.sysconf('SC_CLK_TCK')


def own_seconds():
    usage = resource.getrusage(resource.RUSAGE_CHILDREN)
    return usage.ru_utime + usage.ru_stime


def machine():
    about = dict(line.split(':', 1) for line in lines_of(['lscpu']) if ':' in line)
    caches = [f'{name} {about[name + " cache"].split("(")[0].strip()}' for name in ('L1d', 'L2', 'L3') if name + ' cache' in about]
    memory = int(re.search(r'MemTotal: *(\d+)', pathlib.Path('/proc/meminfo').read_text())[1]) / 1e6
    return {
        'processor': f'{about["Model name"].strip()}, {about["CPU(s)"].strip()} cores, {", ".join(caches)}, {memory:.0f} GB of memory',
        'system': f'{first_line("uname", "-sr")}; {first_line("cc", "--version")}; OpenVDB {first_line("dpkg-query", "-Wf", "${Version}", "libopenvdb-dev")}',
        'date': datetime.datetime.now(datetime.timezone.utc).strftime('%Y-%m-%d %H:%M UTC'),
        'commit': first_line('git', 'rev-parse', '--short', 'HEAD'),
    }


def sizes(build):
    found = collections.Counter()
    for line in lines_of(['size', '-A', build / 'libvdb.a']):
        match = re.match(r'\.(text|rodata)\S* +(\d+) ', line)
        if match:
            found[match[1]] += int(match[2])
    return found


def calls(build):
    """Which functions of the library call which: what the compiler did not inline."""
    found = collections.defaultdict(set)
    for line in lines_of(['objdump', '-dr', '--no-show-raw-insn', build / 'libvdb.a']):
        function = re.match(r'[0-9a-f]+ <(.+)>:$', line)
        target = re.search(r'R_\S+\s+\.text\.([\w:]+)', line)
        if function:
            inside = function[1]
        elif target:
            found[inside].add(target[1])
    return {name: sorted(found[name]) for name in sorted(found)}


def hostile(build):
    """The times of opening each file that was made to cost as much as it can."""
    found = []
    for path in sorted((build / 'clouds' / 'hostile').glob('*.vdb')):
        cloud = {'name': path.stem, 'times': collections.defaultdict(list)}
        for line in [line for _ in range(HOSTILE[0]) for line in lines_of([build / 'hostile', path, str(HOSTILE[1])])]:
            what, name, *values = line.split()
            if what == 'time':
                cloud['times'][name].append([float(value) for value in values])
            else:
                cloud[name] = int(values[0])
        found.append(cloud)
    return found


def stack(build, clouds):
    """The most that each function used over these clouds."""
    most = collections.Counter()
    for cloud in clouds:
        for line in lines_of([build / 'stack', cloud]):
            _, name, value = line.split()
            most[name] = max(most[name], int(value))
    return most


def instructions(build, cloud, function):
    """How many instructions the function takes while the cloud is opened and walked once, with 4,096 slots."""
    command = ['valgrind', '--tool=callgrind', f'--toggle-collect={function}', '--callgrind-out-file=/dev/null', build / 'ours', cloud, 'once']
    said = subprocess.run(command, check=True, capture_output=True, text=True).stderr
    return int(re.search(r'Collected : (\d+)', said)[1])


def counts(build, cloud):
    return {'cloud': cloud.stem, 'walk': instructions(build, cloud, 'vdb_walk'), 'open': instructions(build, cloud, 'vdb_open_grid_numbered')}


def run(build, short):
    programs = [build / name for name in ('ours', 'least', 'openvdb', 'rust') if (build / name).exists()]
    paths = sorted((build / 'clouds').glob('*.vdb'), key=parts_of)
    paths = [p for p in paths if not (short and '_100_' in p.stem)]
    figures = machine()
    start, busy, own = time.monotonic(), processor_seconds(), own_seconds()
    figures['clouds'] = [measure(path, programs) for path in paths]
    figures['hostile'] = hostile(build)
    figures['minutes'] = (time.monotonic() - start) / 60
    figures['beside'] = max(0, processor_seconds() - busy - (own_seconds() - own)) / (time.monotonic() - start)
    small = [p for p in paths if '_1_' in p.stem]
    figures['sizes'] = sizes(build)
    figures['calls'] = calls(build)
    figures['stack'] = stack(build, small)
    figures['instructions'] = [counts(build, p) for p in paths if '_10_' in p.stem]
    return figures


def main():
    build = pathlib.Path(sys.argv[1])
    options = sys.argv[2:]
    kept = build / 'figures.json'
    if '--last' not in options:
        figures = run(build, '--short' in options)
        kept.write_text(json.dumps(figures, indent=1))
    figures = json.loads(kept.read_text())
    tables.show(figures, '--markdown' in options, '--processor' in options)
    sys.exit(any(cloud['disagreements'] for cloud in figures['clouds']))


if __name__ == '__main__':
    main()
