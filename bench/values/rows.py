#!/usr/bin/env python3
"""Writes rows for crates/lb_command_tests/src/random_values.rt: random programs, and what the naive
reading of their equations gives for a trace of each.

    bench/values/rows.py SEED ..
"""

import sys

sys.dont_write_bytecode = True

import naive
import run

WIDTH = 96
LENGTH = 6


def row(seed):
    """The words of a run, the texts, and the values that are wanted."""
    text, traces, source = run.random_case(seed, (LENGTH,))
    (name, rows), = naive.traces_of(source, 'main', traces)
    wanted = naive.values_csv(naive.Program(source, 'main', None, rows), True)
    return 'lbench --show %s --all --format csv\n%s%%traces\n%s=>\n%sstatus 0' % (
        name, text, traces, wanted)


def within(line):
    """A line of a string literal, split where it is too long."""
    parts = []
    while len(line) > WIDTH + 1:
        end = line.rfind(',', 0, WIDTH) + 1
        parts.append(line[:end])
        line = line[end:]
    return '\\\n'.join(parts + [line])


def main():
    if len(sys.argv) < 2:
        sys.exit(__doc__)
    rows = '\n----\n'.join(row(int(seed)) for seed in sys.argv[1:])
    print('\n'.join(within(line) for line in rows.split('\n')) + '";')


if __name__ == '__main__':
    main()
