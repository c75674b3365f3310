#!/usr/bin/env python3
"""Compares a program lbench with the reference.

    bench/reference/run.py LBENCH [--programs N] [--seed S]

It tries the texts written by hand, each operator with operands at its bounds, and N random programs
with random traces, from seed S on. A random program that shows a difference is made smaller and
printed. The last line counts, and the status is 1 if something differs.
"""

import argparse
import os
import sys
import tempfile
from collections import Counter
from random import Random

sys.dont_write_bytecode = True

import texts
from breaking import broken
from comparison import (Difference, Tool, compare, compare_operator, compare_size,
                        text_of_counts)
from generator import random_program
from operators import operators
from reducer import reduce
from text import Writer

PART_BROKEN = 0.25
PART_FILLED = 0.1
SECONDS_TO_REDUCE = 60
MOST_REPORTED = 5


def told(title, source, wanted, found):
    """Prints a difference."""
    print('%s\n\n%s\nthe reference:\n%s\nlbench:\n%s\n' % (title, source, wanted.rstrip('\n'),
                                                          found.rstrip('\n')), flush=True)


def try_texts(tool):
    differ = 0
    for text, wanted, found in texts.differences(tool):
        differ += 1
        told('differs: text: ' + text.title, text.source, wanted, found)
    return len(texts.TEXTS), differ


def try_operators(tool):
    traces, differ = 0, 0
    for operator in operators():
        try:
            traces += compare_operator(tool, operator)
        except Difference as difference:
            differ += 1
            first = next((pair for pair in zip(difference.wanted.split('\n'),
                                               difference.found.split('\n'))
                          if pair[0] != pair[1]), ('', ''))
            told('differs: operator: ' + operator.name, Writer().program(operator.program()),
                 *first)
    return traces, differ


def program_of(seed):
    """The random program of a seed; some are broken in one place."""
    random, program = Random(seed), random_program(seed)
    if random.random() < PART_BROKEN:
        program = broken(program, random)[0]
    return program, random.random() < PART_FILLED


def try_programs(tool, seeds):
    counts, differ = Counter(), 0
    for seed in seeds:
        program, is_filled = program_of(seed)
        checks = [lambda tried, own=seed: compare(tool, tried, own)]
        if is_filled:
            checks.append(lambda tried: compare_size(tool, tried))
        for check in checks:
            try:
                counts += check(program)
            except Difference as difference:
                differ += 1
                tell_reduced(check, program, seed, difference)
        if differ >= MOST_REPORTED:
            print('no more programs are tried')
            break
    return counts, differ


def tell_reduced(check, program, seed, difference):
    program, difference = reduce(check, program, difference, SECONDS_TO_REDUCE)
    told('differs: %s: seed %d, made smaller' % (difference.what, seed),
         Writer().program(program), difference.wanted, difference.found)


def main():
    parser = argparse.ArgumentParser(description=__doc__.split('\n')[0])
    parser.add_argument('lbench', metavar='LBENCH', help='the program, as `rt run` makes it')
    parser.add_argument('--programs', metavar='N', type=int, default=2000)
    parser.add_argument('--seed', metavar='S', type=int, default=0)
    words = parser.parse_args()
    # The value of an element is looked up through all those that it needs.
    sys.setrecursionlimit(100000)
    with tempfile.TemporaryDirectory() as folder:
        tool = Tool(os.path.abspath(words.lbench), folder)
        by_hand, differ_by_hand = try_texts(tool)
        traces, differ_operators = try_operators(tool)
        counts, differ_programs = try_programs(tool, range(words.seed, words.seed + words.programs))
    differ = differ_by_hand + differ_operators + differ_programs
    print('texts %d operators %d programs %s differ %d' % (
        by_hand, traces, text_of_counts(counts), differ))
    return 1 if differ else 0


sys.exit(main())
