"""Random traces, their text, and the report on them: docs/FORMATS.md."""

from collections import Counter

from programs import GREATEST, LEAST

WORDS = ['passed', 'fault', 'undefined', 'assertion', 'false']
USUAL = [0, 1, 1, 2, 2, 3, 4, 5, -1, -2, 7]
FAR = [GREATEST, LEAST, GREATEST - 1, LEAST + 1, 46340, 65536]


def random_traces(columns, random):
    """Some traces, each as a name and its records."""
    count = 70 if random.random() < 0.01 else random.choice([1, 3, 5, 8, 8])
    part_of_far = 0 if random.random() < 0.8 else 0.2
    return [('t%d' % index, random_records(columns, random, part_of_far))
            for index in range(count)]


def random_records(columns, random, part_of_far):
    part_of_true = random.choice([0.3, 0.5, 0.7, 0.9])
    length = random.choice([1, 2, 3, 4, 5, 6, 8, 12])
    first_true = part_of_true if random.random() < 0.4 else 0.9
    return [[cell(kind, random, part_of_true if instant else first_true, part_of_far)
             for _, kind in columns] for instant in range(length)]


def cell(kind, random, part_of_true, part_of_far):
    if kind == 'bool':
        return random.random() < part_of_true
    return random.choice(FAR if random.random() < part_of_far else USUAL)


def text_of_cell(value, random):
    if isinstance(value, bool):
        words = ('true', '1') if value else ('false', '0')
        return words[random.random() < 0.8]
    if value == 0 and random.random() < 0.05:
        return random.choice(['-0', '000'])
    return '007' if value == 7 else str(value)


def text_of_traces(columns, traces, random):
    """The text of traces, with the columns in any order."""
    order = list(range(len(columns)))
    random.shuffle(order)
    lines = [','.join(['trace'] + [columns[position][0] for position in order])]
    for name, records in traces:
        for record in records:
            cells = [text_of_cell(record[position], random) for position in order]
            lines.append(','.join([name] + cells))
    return '\n'.join(lines) + '\n'


def report(verdicts):
    """The report on verdicts, each given as name, word, and instant or None."""
    lines = [name + ' ' + word + ('' if instant is None else ' %d' % instant)
             for name, word, instant in verdicts]
    counts = Counter(word for _, word, _ in verdicts)
    total = ' '.join('%s %d' % (word, counts[word]) for word in WORDS)
    return '\n'.join(lines + ['total %d %s' % (len(verdicts), total)]) + '\n'


def fails(verdicts):
    """Whether the exit status is 1."""
    return any(word in ('fault', 'undefined', 'false') for _, word, _ in verdicts)


def shown(value):
    """A value as `--show` prints it, nothing where it is absent."""
    if value is None:
        return ''
    return str(int(value)) if isinstance(value, bool) else str(value)
