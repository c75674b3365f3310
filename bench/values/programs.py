"""Random programs of the whole language, and random traces for them."""

import random
import re
import textwrap

# Nodes that a random node under test may call, each with those that it calls.
HELPERS = (
    ('two', """\
function two(a, b: int) returns (p, q: int);
let p = (a + C) mod 100; q = if b > D then b else a; tel
"""),
    ('split', """\
node split(x: int) returns (b: bool; y: int when b; z: int when not b);
let b = x > 0; y = count(x when b); z = (-x when not b) -> pre z + 1; tel
"""),
    ('count', """\
node count(x: int) returns (n: int);
let n = (x -> pre n + x) mod 100; tel
"""),
    ('toggle', """\
node toggle(b: bool) returns (c: bool);
let c = b -> if b then not pre c else pre c; tel
"""),
    ('late', """\
node late(c: bool; y: int when c) returns (z: int when c);
let z = 0 -> pre y; tel
"""),
    ('hold', """\
node hold(c: bool; y: int when c) returns (z: int);
let z = if c then current y else 0 -> pre z; tel
"""),
    ('step', """\
node step<<const k: int>>(a: int) returns (b, e: int);
let b = (a + k) mod 50; e = k fby (e + a) mod 50; tel
"""),
    ('shift', """\
node shift<<const n: int>>(x: int; A: int^n) returns (y: int);
var B: int^n;
let B = A -> pre A; y = red<<+, n>>(x, B) mod 100; tel
"""))
CONSTANTS = 'const C = 3; D: int = C - 1;\n'
WIDTH = 96
KINDS = ('int', 'bool', ('int', 1), ('int', 2), ('int', 3), ('bool', 2), (('int', 2), 2))
COMPARISONS = ('=', '<>', '<', '<=', '>', '>=')
JOINS = ('and', 'or', 'xor', '=>')


def written(kind):
    sizes = ''
    while not isinstance(kind, str):
        sizes, kind = '^%d' % kind[1] + sizes, kind[0]
    return kind + sizes


def condition(clock):
    name, sign = clock[-1]
    return name if sign else 'not ' + name


class Program:
    """A node under test that grows, variable by variable."""

    def __init__(self, seed):
        self.random = random.Random(seed)
        self.kinds, self.clocks = {}, {}
        self.settled = []  # the variables whose types and clocks are settled
        self.ready = []  # those of them that may be read at the same instant
        self.inputs = ['i%d' % k for k in range(self.random.randrange(2, 5))]
        self.locals = ['v%d' % k for k in range(self.random.randrange(3, 8))]
        self.lines = []
        for name in self.inputs + self.locals:
            self.kinds[name] = self.random.choice(KINDS)
            self.clocks[name] = ()
        self.kinds[self.inputs[0]], self.kinds[self.inputs[1]] = 'bool', 'int'
        self.settled += self.inputs
        self.ready += self.inputs
        self.define_locals()
        self.define_property()

    # Variables and statements

    def define_locals(self):
        waiting = list(self.locals)
        while waiting:
            name = waiting.pop(0)
            self.settle(name, self.kinds[name], self.some_clock())
            if waiting and self.random.random() < 0.25:
                self.define_two(name, waiting.pop(0))
            elif waiting and self.random.random() < 0.1 and len(waiting) > 1:
                self.define_three(name, waiting.pop(0), waiting.pop(0))
            else:
                self.define(name, self.expression(self.kinds[name], self.clocks[name], 3))

    def settle(self, name, kind, clock):
        self.kinds[name], self.clocks[name] = kind, clock
        self.settled.append(name)

    def define(self, name, expression):
        self.lines.append('  %s = %s;' % (name, expression))
        self.ready.append(name)

    def define_two(self, first, second):
        """Two results of a call or of an iterator."""
        clock, size = self.clocks[first], self.random.randrange(1, 4)
        form = self.random.randrange(4)
        self.kinds[first] = ('int', size) if form == 3 else 'int'
        self.settle(second, ('int', size) if form > 1 else 'int', clock)
        operands = [self.expression(('int', size) if form == 3 else 'int', clock, 2)
                    for _ in range(2)]
        call = ('two(%s, %s)' % tuple(operands), 'step<<%d>>(%s)' % (size, operands[0]),
                'fill<<step<<C>>, %d>>(%s)' % (size, operands[0]),
                'map<<two, %d>>(%s, %s)' % (size, *operands))[form]
        self.lines.append('  (%s, %s) = %s;' % (first, second, call))
        self.ready += [first, second]

    def define_three(self, truth, chosen, other):
        """The results of `split`, two of which are on the clock of the first."""
        clock = self.clocks[truth]
        self.kinds[truth] = 'bool'
        self.settle(chosen, 'int', clock + ((truth, True),))
        self.settle(other, 'int', clock + ((truth, False),))
        argument = self.expression('int', clock, 2)
        self.lines.append('  (%s, %s, %s) = split(%s);' % (truth, chosen, other, argument))
        self.ready += [truth, chosen, other]

    def define_property(self):
        self.settle('ok', 'bool', ())
        guard, first, second = (self.expression('bool', (), 2) for _ in range(3))
        self.define('ok', 'true -> (%s or %s or %s)' % (guard, first, second))
        if self.random.random() < 0.4:
            assumed = self.expression('bool', (), 1), self.expression('bool', (), 1)
            self.lines.append('  assert true -> %s or %s;' % assumed)
        self.random.shuffle(self.lines)

    def some_clock(self):
        """The base clock, or the clock of a variable."""
        truths = [name for name in self.ready if self.kinds[name] == 'bool'
                  and len(self.clocks[name]) < 2]
        if self.random.random() < 0.5 or not truths:
            return ()
        name = self.random.choice(truths)
        return self.clocks[name] + ((name, self.random.random() < 0.6),)

    def named(self, kind, clock, names):
        """A variable of a type and a clock among some, or None."""
        fitting = [n for n in names if self.kinds[n] == kind and self.clocks[n] == clock]
        return self.random.choice(fitting) if fitting else None

    # Expressions

    def expression(self, kind, clock, depth):
        if depth == 0 or self.random.random() < 0.1:
            return self.leaf(kind, clock)
        forms = [self.memory, self.memory, self.choice, self.brought_back, self.picked]
        forms += {'int': [self.sum, self.sum, self.call, self.reduced],
                  'bool': [self.truth, self.truth, self.call]}.get(kind, [self.array] * 4)
        return self.random.choice(forms)(kind, clock, depth - 1)

    def leaf(self, kind, clock):
        name = self.named(kind, clock, self.ready)
        if name and self.random.random() < 0.85:
            return name
        if clock and self.random.random() < 0.8:
            return '(%s when %s)' % (self.leaf(kind, clock[:-1]), condition(clock))
        if kind == 'int':
            return self.random.choice(('0', '1', '2', '5', '10', 'C', 'D', '(-3)', '2147483647'))
        if kind == 'bool':
            return self.random.choice(('true', 'false'))
        if self.random.random() < 0.5:
            return '(%s^%d)' % (self.leaf(kind[0], clock), kind[1])
        return '[%s]' % ', '.join(self.leaf(kind[0], clock) for _ in range(kind[1]))

    def memory(self, kind, clock, depth):
        """A memory, mostly behind an arrow; it may keep the variable that is defined by it."""
        first = self.expression(kind, clock, depth)
        kept = self.named(kind, clock, self.settled) or self.leaf(kind, clock)
        form = self.random.random()
        if form < 0.1:
            return '(pre %s)' % kept
        if form < 0.5:
            return '(%s -> pre %s)' % (first, kept)
        if form < 0.8:
            return '(%s fby %s)' % (first, kept)
        return '(%s -> %s)' % (first, self.expression(kind, clock, depth))

    def choice(self, kind, clock, depth):
        chosen, other = self.expression(kind, clock, depth), self.expression(kind, clock, depth)
        return '(if %s then %s else %s)' % (self.expression('bool', clock, depth), chosen, other)

    def brought_back(self, kind, clock, depth):
        """The latest value of something on a slower clock."""
        name = self.named('bool', clock, self.ready)
        if not name:
            return self.leaf(kind, clock)
        slower = clock + ((name, self.random.random() < 0.6),)
        variable = self.named(kind, slower, self.ready)
        inner = variable or '(%s when %s)' % (self.leaf(kind, clock), condition(slower))
        latest = '(current %s)' % inner
        if self.random.random() < 0.6:
            return '(%s -> %s)' % (self.expression(kind, clock, depth), latest)
        return latest

    def picked(self, kind, clock, depth):
        """An element of an array."""
        if not isinstance(kind, str):
            return self.leaf(kind, clock)
        size = self.random.randrange(1, 4)
        array = self.expression((kind, size), clock, depth)
        return '(%s)[%d]' % (array, self.random.randrange(size))

    def sum(self, kind, clock, depth):
        left, right = (self.expression('int', clock, depth) for _ in range(2))
        form = self.random.random()
        if form < 0.08:
            return '(%s %s %s)' % (left, self.random.choice(('div', 'mod', '/')), right)
        if form < 0.25:
            return '(%s mod %s)' % (left, self.random.choice(('7', '97', '(-3)')))
        if form < 0.3:
            return '(- %s)' % left
        return '((%s %s %s) mod 1000)' % (left, self.random.choice('+-+-*'), right)

    def truth(self, kind, clock, depth):
        form = self.random.random()
        if form < 0.15:
            return '(not %s)' % self.expression('bool', clock, depth)
        if form < 0.3:
            truths = ', '.join(self.expression('bool', clock, depth) for _ in range(3))
            return '%s(%s)' % (self.random.choice(('#', 'nor')), truths)
        kind, signs = self.random.choice((('int', COMPARISONS), ('bool', JOINS)))
        left, right = (self.expression(kind, clock, depth) for _ in range(2))
        return '(%s %s %s)' % (left, self.random.choice(signs), right)

    def call(self, kind, clock, depth):
        if kind == 'bool':
            return 'toggle(%s)' % self.expression('bool', clock, depth)
        if clock and clock[-1][1] and self.random.random() < 0.5:
            return 'late(%s, %s)' % (clock[-1][0], self.leaf('int', clock))
        name = self.named('bool', clock, self.ready)
        form = self.random.random()
        if name and form < 0.4:
            return 'hold(%s, %s when %s)' % (name, self.leaf('int', clock), name)
        if form < 0.6:
            array = self.expression(('int', 2), clock, depth)
            return 'shift<<D>>(%s, %s)' % (self.expression('int', clock, depth), array)
        return 'count(%s)' % self.expression('int', clock, depth)

    def reduced(self, kind, clock, depth):
        size, first = self.random.randrange(1, 4), self.expression('int', clock, depth)
        if self.random.random() < 0.3:
            return 'red<<count, %d>>(%s)' % (size, first)
        array = self.expression(('int', size), clock, depth)
        return 'red<<%s, %d>>(%s, %s)' % (self.random.choice('+-'), size, first, array)

    def array(self, kind, clock, depth):
        element, size = kind
        form = self.random.random()
        if form < 0.25 and element in ('int', 'bool'):
            sign = self.random.choice('+-' if element == 'int' else ('and', 'or', 'xor'))
            arrays = tuple(self.expression(kind, clock, depth) for _ in range(2))
            return 'map<<%s, %d>>(%s, %s)' % (sign, size, *arrays)
        if form < 0.45 and element in ('int', 'bool'):
            name = 'count' if element == 'int' else 'toggle'
            return 'map<<%s, %d>>(%s)' % (name, size, self.expression(kind, clock, depth))
        if form < 0.6 and size > 1:
            first = self.expression((element, 1), clock, depth)
            return '(%s | %s)' % (first, self.expression((element, size - 1), clock, depth))
        if form < 0.75:
            array = self.expression((element, size + 1), clock, depth)
            return '(%s)[1 .. %d]' % (array, size)
        return '[%s]' % ', '.join(self.expression(element, clock, depth) for _ in range(size))

    # Texts

    def declared(self, name):
        clock = self.clocks[name]
        when = ' when %s' % condition(clock) if clock else ''
        return '%s: %s%s' % (name, written(self.kinds[name]), when)

    def called(self):
        """The text of the nodes that are called."""
        body, text = '\n'.join(self.lines), ''
        for name, node in HELPERS:
            if re.search(r'\b%s\b' % name, body + text):
                text += node
        return (CONSTANTS if re.search(r'\b[CD]\b', body + text) else '') + text

    def source(self):
        inputs = '; '.join(self.declared(name) for name in self.inputs)
        own = 'var ' + ' '.join(self.declared(name) + ';' for name in self.locals)
        lines = ['node main(%s) returns (ok: bool);' % inputs, own, 'let', *self.lines, 'tel']
        return self.called() + '\n'.join(
            textwrap.fill(line, WIDTH, subsequent_indent='    ', break_long_words=False,
                          break_on_hyphens=False) for line in lines) + '\n'

    def cells(self, kind, before):
        """Random cells of an input, now and then those of the instant before."""
        if before and self.random.random() < 0.3:
            return before
        if kind == 'bool':
            return [str(self.random.randrange(2))]
        if kind == 'int':
            values = (0, 1, 2, 3, -1, -2, 7, 20) if self.random.random() < 0.97 else (
                2147483647, -2147483648, 46341)
            return [str(self.random.choice(values))]
        return [cell for _ in range(kind[1]) for cell in self.cells(kind[0], [])]

    def traces(self, header, lengths):
        """A text with a trace of each of some lengths."""
        lines = [header]
        for number, length in enumerate(lengths):
            before = {}
            for _ in range(length):
                for name in self.inputs:
                    before[name] = self.cells(self.kinds[name], before.get(name))
                cells = [cell for name in self.inputs for cell in before[name]]
                lines.append(','.join(['t%d' % number] + cells))
        return '\n'.join(lines) + '\n'
