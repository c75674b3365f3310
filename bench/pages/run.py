#!/usr/bin/env python3
"""Runs each command that a page shows, and compares what it prints with the page.

    bench/pages/run.py PAGE.md [LBENCH]

A section begins with `## `. A fenced block with two words, as ```lus pump.lus, is a file. It is
written into a folder, and stays there until another block has the same name. A `console` block has
commands after `$ `, each followed by what it prints. LBENCH is the program:
crates/lbench/out/lbench, unless another path is given.
"""

import os
import re
import subprocess
import sys
import tempfile

ROOT = os.path.dirname(os.path.dirname(os.path.dirname(os.path.abspath(__file__))))


def sections(page):
    """The sections of a page, each as its title and its text."""
    for part in page.split('\n## ')[1:]:
        title, _, text = part.partition('\n')
        yield title, text


def blocks(text):
    """The fenced blocks of a text, each as the words behind the fence and the lines."""
    for head, lines in re.findall(r'^```([^\n]*)\n(.*?)^```$', text, re.S | re.M):
        yield head.split(), lines


def commands(block):
    """The commands of a console block, each with what it prints."""
    for part in re.split(r'^\$ ', block, flags=re.M)[1:]:
        command, _, printed = part.partition('\n')
        yield command, printed


def printed_by(command, folder, program):
    """What a command prints on both streams, in a folder, where `lbench` is the program."""
    line = re.sub(r'\blbench\b(?= )', program, command)
    done = subprocess.run(['bash', '-c', line], cwd=folder, stdin=subprocess.DEVNULL,
                          stdout=subprocess.PIPE, stderr=subprocess.STDOUT)
    return done.stdout.decode()


def run_section(text, folder, program):
    """Runs the commands of a section. Yields each with what it should print and what it prints."""
    for words, lines in blocks(text):
        if len(words) == 2:
            with open(os.path.join(folder, words[1]), 'w') as file:
                file.write(lines)
        elif words == ['console']:
            for command, wanted in commands(lines):
                yield command, wanted, printed_by(command, folder, program)


def main(page, program=os.path.join(ROOT, 'crates/lbench/out/lbench')):
    with open(page) as file:
        text = file.read()
    total, failed = 0, 0
    with tempfile.TemporaryDirectory() as folder:
        for title, section in sections(text):
            for command, wanted, found in run_section(section, folder, os.path.abspath(program)):
                total += 1
                if found != wanted:
                    failed += 1
                    print('%s: %s\nwanted:\n%sfound:\n%s' % (title, command, wanted, found))
    print('%d commands, %d print something else' % (total, failed))
    return 1 if failed or not total else 0


sys.exit(main(*sys.argv[1:]))
