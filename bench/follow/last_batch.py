#!/usr/bin/env python3
"""last_batch.py LBENCH [INSTANTS [WORKERS]]: runs LBENCH with --follow on 6,440 short traces. The
last 40 of them are in one batch with a trace of INSTANTS instants. Prints when the lines of all
short traces came, when the lines after them came, and how many processors were busy in between."""
import os
import subprocess
import sys
import tempfile
import time

COUNTERS = 400
SHORT = 6440


def source():
    names = ['n%d' % k for k in range(COUNTERS)]
    lines = ['node main(go: bool) returns (ok: bool);', 'var %s: int;' % ', '.join(names), 'let']
    lines.append('  n0 = if go then 1 else 0;')
    for k in range(1, COUNTERS):
        lines.append('  n%d = (n%d + (0 -> pre n%d)) mod 7;' % (k, k - 1, k))
    lines += ['  ok = n%d >= 0;' % (COUNTERS - 1), 'tel', '']
    return '\n'.join(lines)


def traces(instants):
    short = ['short-%d,%d\n' % (k, k % 2) * 10 for k in range(SHORT)]
    return 'trace,go\n' + ''.join(short) + 'long,1\n' * instants + 'last,1\n' * 10


def processor_time(pid):
    with open('/proc/%d/stat' % pid) as stat:
        fields = stat.read().rsplit(')', 1)[1].split()
    return (int(fields[11]) + int(fields[12])) / os.sysconf('SC_CLK_TCK')


def main(lbench, instants='1000000', workers='4'):
    with tempfile.TemporaryDirectory() as work:
        with open(work + '/main.lus', 'w') as file:
            file.write(source())
        with open(work + '/traces.csv', 'w') as file:
            file.write(traces(int(instants)))
        run = subprocess.Popen([lbench, '--follow', '--workers', workers, work + '/main.lus',
                                work + '/traces.csv'], stdout=subprocess.PIPE)
        run.stdout.readline()
        first = time.perf_counter()
        for _ in range(1, SHORT):
            run.stdout.readline()
        before, busy = time.perf_counter(), processor_time(run.pid)
        run.stdout.readline()
        after, used = time.perf_counter(), processor_time(run.pid) - busy
        rest = len(run.stdout.readlines())
        last = time.perf_counter()
        status = run.wait()
    print('%d lines came within %.3f s, the next after %.3f s, the last %d after %.3f s more; '
          '%.2f processors were busy meanwhile, %s workers, status %d'
          % (SHORT, before - first, after - before, rest, last - after, used / (after - before),
             workers, status))


main(*sys.argv[1:])
