#!/usr/bin/env python3
"""first_line.py TRACES COMMAND...: runs COMMAND with TRACES on a pipe as its standard input. Prints
how long after the last byte was taken the first line of the report came, and the last line."""
import subprocess
import sys
import threading
import time


def main(traces, command):
    with open(traces, 'rb') as file:
        text = file.read()
    run = subprocess.Popen(command, stdin=subprocess.PIPE, stdout=subprocess.PIPE)
    taken = []

    def give():
        run.stdin.write(text)
        run.stdin.close()
        taken.append(time.perf_counter())

    giver = threading.Thread(target=give)
    giver.start()
    run.stdout.readline()
    first = time.perf_counter()
    lines = 1 + sum(1 for _ in run.stdout)
    last = time.perf_counter()
    giver.join()
    status = run.wait()
    print('first line %.3f s, last of %d lines %.3f s after the last byte was taken, status %d'
          % (first - taken[0], lines, last - taken[0], status))


main(sys.argv[1], sys.argv[2:])
