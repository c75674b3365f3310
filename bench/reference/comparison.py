"""Compares what the tool answers to a program with what the reference says."""

import os
import subprocess
from collections import Counter
from random import Random

from meaning import Meaning
from rules import judge
from sizes import with_size
from text import Writer
from traces import WORDS, fails, random_traces, report, shown, text_of_traces

BATCHES = ['1', '2', '7', '64']
FOLLOW = [[], [], ['--follow'], ['--follow', '--by-length']]


class Difference(Exception):
    """The reference says one thing and the tool another."""

    def __init__(self, what, wanted, found):
        super().__init__(what)
        self.what, self.wanted, self.found = what, wanted, found

    def key(self):
        """What a smaller program has to keep: the kind, and the number of a refusal."""
        return self.what, refusal_of(self.wanted), refusal_of(self.found)


def refusal_of(answer):
    """The beginning `refused: E10` of an answer, or nothing."""
    return ' '.join(answer.split()[:2]) if answer.startswith('refused: ') else ''


class Tool:
    """A program lbench, and a folder for the texts that it reads."""

    def __init__(self, program, folder):
        self.program = program
        self.source = os.path.join(folder, 'program.lus')
        self.traces = os.path.join(folder, 'traces.csv')

    def write(self, source, traces='trace\n'):
        for path, text in ((self.source, source), (self.traces, traces)):
            with open(path, 'w', encoding='ascii') as file:
                file.write(text)

    def answer(self, options, with_traces=True):
        """The status, the output and the errors of a run on the texts that were written."""
        texts = [self.source, self.traces] if with_traces else [self.source]
        done = subprocess.run([self.program] + options + texts, stdin=subprocess.DEVNULL,
                              stdout=subprocess.PIPE, stderr=subprocess.PIPE, timeout=300,
                              check=False)
        return done.returncode, done.stdout.decode(), done.stderr.decode()


def compare(tool, program, seed):
    """The counts of what agrees, as pairs of a name and a number; or raises a Difference."""
    random = Random(seed)
    source = Writer(Random(seed)).program(program)
    accepted, refusal = judge(program)
    if refusal:
        tool.write(source)
        compare_refusal(tool, program, refusal)
        return Counter({'refused': 1, 'E%d' % refusal.number: 1})
    meaning = Meaning(accepted)
    columns = meaning.columns()
    traces = random_traces(columns, random)
    tool.write(source, text_of_traces(columns, traces, random))
    verdicts, values = run_all(meaning, traces)
    compare_reports(tool, program, verdicts, random)
    cells = compare_values(tool, program, meaning, random.choice(list(values.items())))
    counts = Counter(word for _, word, _ in verdicts)
    counts.update(accepted=1, traces=len(verdicts), values=cells)
    return counts


def run_all(meaning, traces):
    """The verdicts of traces, each as its name, word and instant, and the values by name."""
    verdicts, values = [], {}
    for own_name, records in traces:
        word, instant, values[own_name] = meaning.run(records)
        verdicts.append((own_name, word, instant))
    return verdicts, values


def compare_operator(tool, operator):
    """Compares the reports on an operator with all its operands. Answers how many traces."""
    program, random = operator.program(), Random(operator.name)
    meaning = Meaning(judge(program)[0])
    traces = operator.traces()
    tool.write(Writer().program(program), text_of_traces(meaning.columns(), traces, random))
    compare_reports(tool, program, run_all(meaning, traces)[0], random)
    return len(traces)


def compare_size(tool, program):
    """Fills an accepted program up to the greatest size, and to one more, which is E12. Its node
    under test has to be there once."""
    accepted, _ = judge(program)
    nodes = [instance.node.name for instance in accepted.instances] if accepted else []
    if nodes.count(program.main) != 1:
        return Counter()
    for size, status, answer in ((65536, 0, ''), (65537, 2, 'refused: E12 ')):
        filled = with_size(program, accepted.size, size)
        tool.write(Writer().program(filled))
        found = tool.answer(program.options() + ['--check'], with_traces=False)
        if found[0] != status or not found[2].startswith(answer):
            raise Difference('size %d' % size, answer or 'accepted', found[2] or 'accepted')
    return Counter(filled=1)


def compare_refusal(tool, program, refusal):
    for workers in ('1', '4'):
        status, output, errors = tool.answer(program.options() + ['--workers', workers])
        if status != 2 or output or not errors.startswith('refused: E%d ' % refusal.number):
            raise Difference('refusal', 'refused: E%d (%s)\n' % refusal.args, output + errors)


def compare_reports(tool, program, verdicts, random):
    """The report, by one worker and by four, in batches of any size, at once or line by line."""
    several = ['--workers', '4', '--batch', random.choice(BATCHES)] + random.choice(FOLLOW)
    for options in (['--workers', '1'], several):
        status = 1 if fails(verdicts) and '--follow' not in options else 0
        wanted = (status, report(verdicts), '')
        found = tool.answer(program.options() + options)
        if found != wanted:
            raise Difference('report', text_of_answer(wanted), text_of_answer(found))


def text_of_answer(answer):
    status, output, errors = answer
    return '%s%sstatus %d\n' % (output, errors, status)


def compare_values(tool, program, meaning, trace):
    """The values of all variables in one trace. Answers how many there are."""
    own_name, values = trace
    options = ['--show', own_name, '--format', 'csv', '--all']
    _, output, errors = tool.answer(program.options() + options)
    head, *lines = output.split('\n') if output else ['']
    columns = [column.split('.')[-1].split('[')[0] for column in head.split(',')[1:]]
    names = [variable for _, variable, _ in meaning.order]
    wanted = [','.join([str(instant)] + [shown(value) for value in row])
              for instant, row in enumerate(values)] + ['']
    if columns != names or lines != wanted:
        raise Difference('values of a trace', '\n'.join([','.join(['instant'] + names)] + wanted),
                         output + errors)
    return sum(map(len, values))


def text_of_counts(counts):
    """One line on what was compared and agrees."""
    refusals = sorted((word for word in counts if word[0] == 'E'), key=lambda word: int(word[1:]))
    return 'accepted %d refused %d (%s) traces %d (%s) values %d filled %d' % (
        counts['accepted'], counts['refused'],
        ' '.join('%s %d' % (word, counts[word]) for word in refusals), counts['traces'],
        ' '.join('%s %d' % (word, counts[word]) for word in WORDS), counts['values'],
        counts['filled'])
