#!/usr/bin/env python3
"""Compares each cell of `--show` with `--format csv` with a naive reading of the equations.

    LBENCH=crates/lbench/out/lbench bench/values/run.py examples
    LBENCH=crates/lbench/out/lbench bench/values/run.py random FIRST COUNT

The first takes the traces of examples/, the second random programs of some seeds, with a trace of
each of five lengths. The status is 1 where some values differ.
"""

import os
import subprocess
import sys
import tempfile

sys.dont_write_bytecode = True

import naive
import programs
import syntax

LBENCH = os.environ.get('LBENCH', 'lbench')
EXAMPLES = os.path.join(os.path.dirname(os.path.abspath(__file__)), '../../examples')
STARTS = {'burner': ('main', None), 'press': ('press', 'safe'), 'altitude': ('hold', 'envelope'),
          'tank': ('main', None), 'u_turn': ('UMS', 'safe'), 'station': ('station', 'safe')}
LENGTHS = (1, 2, 4, 8, 12)


class Tally:
    def __init__(self):
        self.traces = self.cells = self.different = self.refused = 0

    def compare(self, name, arguments, wanted):
        """Compares the values of a trace with those that the bench shows."""
        run = subprocess.run([LBENCH, *arguments], capture_output=True, text=True)
        self.traces += 1
        header, *records = wanted.splitlines()
        self.cells += header.count(',') * len(records)
        if run.stdout != wanted:
            self.different += 1
            print('%s differs' % name, run.stderr, first_difference(wanted, run.stdout))

    def told(self):
        print('%d traces, %d cells, %d traces differ, %d programs refused'
              % (self.traces, self.cells, self.different, self.refused))
        return 1 if self.different else 0


def first_difference(wanted, got):
    columns = wanted.splitlines()[0].split(',')
    for ours, theirs in zip(wanted.splitlines(), got.splitlines()):
        for name, a, b in zip(columns, ours.split(','), theirs.split(',')):
            if a != b:
                return 'at %s, %s: wanted `%s`, shown `%s`' % (ours.split(',')[0], name, a, b)
    return '%d lines are wanted, %d are shown' % (wanted.count('\n'), got.count('\n'))


def compare_examples(tally):
    for name, (node, observer) in STARTS.items():
        path = os.path.join(EXAMPLES, name)
        with open(path + '.lus') as file:
            source = syntax.read(file.read())
        with open(path + '.csv') as file:
            traces = naive.traces_of(source, node, file.read())
        options = ['--node', node] + (['--observe', observer] if observer else [])
        for trace, rows in traces:
            wanted = naive.values_csv(naive.Program(source, node, observer, rows), True)
            options_of_trace = ['--show', trace, '--format', 'csv', '--all']
            files = [path + '.lus', path + '.csv']
            tally.compare('%s %s' % (name, trace), options + options_of_trace + files, wanted)


def random_case(seed, lengths=LENGTHS):
    """The source and the trace text of a seed, and its trees."""
    program = programs.Program(seed)
    text = program.source()
    source = syntax.read(text)
    header = ','.join(['trace'] + naive.columns_of(naive.input_kinds(source, 'main')))
    return text, program.traces(header, lengths), source


def compare_random(tally, seed):
    text, traces, source = random_case(seed)
    with tempfile.TemporaryDirectory() as folder:
        paths = [os.path.join(folder, name) for name in ('main.lus', 'main.csv')]
        for path, content in zip(paths, (text, traces)):
            with open(path, 'w') as file:
                file.write(content)
        if subprocess.run([LBENCH, '--check', paths[0]], capture_output=True).returncode:
            tally.refused += 1
            return
        for trace, rows in naive.traces_of(source, 'main', traces):
            wanted = naive.values_csv(naive.Program(source, 'main', None, rows), True)
            options = ['--show', trace, '--format', 'csv', '--all']
            tally.compare('seed %d %s' % (seed, trace), options + paths, wanted)


def main():
    tally = Tally()
    if sys.argv[1:] == ['examples']:
        compare_examples(tally)
    elif sys.argv[1:2] == ['random'] and len(sys.argv) == 4:
        first, count = int(sys.argv[2]), int(sys.argv[3])
        for seed in range(first, first + count):
            compare_random(tally, seed)
    else:
        sys.exit(__doc__)
    return tally.told()


if __name__ == '__main__':
    sys.exit(main())
