"""A naive evaluation of the equations of a program: the value of each variable at each instant.

It is written from docs/LANGUAGE.md alone, without regard to speed. An expression is evaluated at an
instant by evaluating its operands there, and a memory by looking back for its last tick.

The value of a scalar is a number, a Boolean, NIL or BAD; the value of an array is a list. ABSENT
stands where there is no value.
"""

import sys
from collections import namedtuple

ABSENT, NIL, BAD = 'absent', 'nil', 'bad'
LEAST, MOST = -2**31, 2**31 - 1

# A type is 'int', 'bool' or a pair of the type of the elements and their number.
# A clock is a list of pairs, from the base on: a variable, and the Boolean that it has to have.
BASE = ()

Column = namedtuple('Column', 'name instance variable path')

sys.setrecursionlimit(1000000)


def in_range(number):
    return number if LEAST <= number <= MOST else BAD


def quotient(a, b):
    """a divided by b, cut toward zero."""
    whole = abs(a) // abs(b)
    return whole if (a < 0) == (b < 0) else -whole


def divided(sign, a, b):
    if b == 0 or (a == LEAST and b == -1):
        return BAD
    return quotient(a, b) if sign in ('/', 'div') else a - b * quotient(a, b)


OPERATORS = {
    '+': lambda a, b: in_range(a + b), '-': lambda a, b: in_range(a - b),
    '*': lambda a, b: in_range(a * b), '/': lambda a, b: divided('/', a, b),
    'div': lambda a, b: divided('div', a, b), 'mod': lambda a, b: divided('mod', a, b),
    'and': lambda a, b: a and b, 'or': lambda a, b: a or b, 'xor': lambda a, b: a != b,
    '=>': lambda a, b: not a or b, '=': lambda a, b: a == b, '<>': lambda a, b: a != b,
    '<': lambda a, b: a < b, '<=': lambda a, b: a <= b, '>': lambda a, b: a > b,
    '>=': lambda a, b: a >= b}


def strict(function, operands):
    """The result of a data operator: BAD if an operand is BAD, else NIL if an operand is NIL."""
    if any(operand is BAD for operand in operands):
        return BAD
    if any(operand is NIL for operand in operands):
        return NIL
    return function(*operands)


def filled(kind, scalar):
    """A value of a type whose elements are all the same."""
    return scalar if isinstance(kind, str) else [filled(kind[0], scalar)] * kind[1]


def holds(value, scalar):
    """Whether some element of a value is NIL, or BAD."""
    if isinstance(value, list):
        return any(holds(element, scalar) for element in value)
    return value is scalar


def static_value(expression, values):
    form = expression[0]
    if form == 'number':
        return expression[1]
    if form == 'name':
        return values[expression[1]]
    if form == 'negate':
        return -static_value(expression[1], values)
    _, sign, left, right = expression
    return OPERATORS[sign](static_value(left, values), static_value(right, values))


def constant_values(source):
    """The values of the constants that have one."""
    values, left = {}, dict(source.constants)
    while left:
        ready = [name for name in left if all(n in values for n in names_in(left[name]))]
        if not ready:
            break
        for name in ready:
            values[name] = static_value(left.pop(name), values)
    return values


def names_in(expression):
    if expression[0] == 'name':
        return [expression[1]]
    return [name for part in expression[1:] if isinstance(part, tuple) for name in names_in(part)]


class Instance:
    """An instance: a node as it is called at one place, with memories of its own."""

    def __init__(self, program, label, name, parameters, is_there, arguments):
        self.program, self.label = program, label
        self.node = program.source.nodes[name]
        self.statics = dict(program.constants)
        self.statics.update(zip(self.node.parameters, parameters))
        self.is_there = is_there  # whether the base clock ticks at an instant
        self.arguments = dict(zip((v.name for v in self.node.inputs), arguments))
        self.variables = self.node.inputs + self.node.outputs + self.node.locals
        self.declared = {v.name: v for v in self.variables}
        for v in self.variables:
            self.statics.pop(v.name, None)
        self.kinds = {v.name: self.declared_kind(v) for v in self.variables}
        self.children, self.clocks, self.kept, self.clock_names = {}, {}, [], set()
        self.known, self.values, self.defined = {}, {}, {}
        for v in self.variables:
            if v.clock:
                self.clock_names.add(v.clock[1])
        for equation in self.node.equations:
            for place, name in enumerate(equation.left):
                self.defined[name] = (equation, place)
            self.enter(equation.right, self.clock_of(equation.left[0]), equation.left)
        self.asserted = []
        for assertion in self.node.assertions:
            clock = self.determined(assertion)
            self.asserted.append((assertion, BASE if clock is None else clock))
            self.enter(*self.asserted[-1])

    # Types

    def declared_kind(self, variable):
        kind = variable.base
        for size in variable.sizes:
            kind = (kind, static_value(size, self.statics))
        return kind

    def kind(self, expression):
        """The type of an expression with one result."""
        form = expression[0]
        if form == 'name':
            return self.kinds.get(expression[1], 'int')
        if form in ('number', 'negate'):
            return 'int'
        if form in ('truth', 'not', '#', 'nor'):
            return 'bool'
        if form in ('pre', 'current', 'when'):
            return self.kind(expression[1])
        if form == 'if':
            return self.kind(expression[2])
        if form == 'binary':
            return self.binary_kind(expression)
        if form in ('call', 'map', 'red', 'fill'):
            return self.result_kind(expression)
        return self.array_kind(expression)

    def binary_kind(self, expression):
        _, sign, left, right = expression
        if sign == '|':
            first, second = self.kind(left), self.kind(right)
            return (first[0], first[1] + second[1])
        if sign in ('->', 'fby'):
            return self.kind(left)
        return 'int' if sign in ('+', '-', '*', '/', 'div', 'mod') else 'bool'

    def array_kind(self, expression):
        form, first = expression[0], expression[1]
        if form == 'array':
            return (self.kind(first[0]), len(first))
        if form == 'copies':
            return (self.kind(first), static_value(expression[2], self.statics))
        if form == 'index':
            return self.kind(first)[0]
        low, high = (static_value(end, self.statics) for end in expression[2:])
        return (self.kind(first)[0], high - low + 1)

    def result_kind(self, expression):
        if expression[0] == 'red':
            return self.kind(expression[5][0])
        if expression[0] == 'call':
            child = self.children[id(expression)][0]
            return child.kinds[child.node.outputs[0].name]
        size = static_value(expression[3], self.statics)
        if expression[1] in OPERATORS:
            return (self.kind(expression[5][0])[0], size)
        child = self.children[id(expression)][0]
        return (child.kinds[child.node.outputs[0].name], size)

    # Clocks

    def clock_of(self, name):
        """The declared clock of a variable."""
        clock = self.declared[name].clock
        return BASE if clock is None else self.clock_of(clock[1]) + ((clock[1], clock[0]),)

    def ticks(self, clock, t):
        return self.is_there(t) and all(self.variable(name, t) is sign for name, sign in clock)

    def determined(self, expression):
        """The clock that something inside an expression determines, or None."""
        form = expression[0]
        if form == 'name':
            return self.clock_of(expression[1]) if expression[1] in self.declared else None
        if form == 'when':
            sign, name = expression[2]
            return self.clock_of(name) + ((name, sign),)
        if form == 'current':
            return self.determined(expression[1])[:-1]
        if form == 'call':
            base = self.call_base(expression)
            node = self.program.source.nodes[expression[1]]
            if base is None:
                return None
            return base + self.from_caller(node, expression[4], node.outputs[0].clock)
        for part in parts(expression):
            clock = self.determined(part)
            if clock is not None:
                return clock
        return None

    def from_caller(self, node, arguments, clock, left=()):
        """A clock of a called node below its base clock, in the variables of the caller."""
        if clock is None:
            return BASE
        given = dict(zip((v.name for v in node.inputs), arguments))
        goes = dict(zip((v.name for v in node.outputs), left))
        sign, name = clock
        inner = next(v for v in node.inputs + node.outputs if v.name == name).clock
        variable = given[name][1] if name in given else goes[name]
        return self.from_caller(node, arguments, inner, left) + ((variable, sign),)

    def call_base(self, expression):
        """The clock on which a called node runs, where an argument determines it."""
        node = self.program.source.nodes[expression[1]]
        for variable, argument in zip(node.inputs, expression[4]):
            clock = self.determined(argument)
            if clock is not None:
                below = len(self.from_caller(node, expression[4], variable.clock))
                return clock[:len(clock) - below]
        return None

    # Instances

    def enter(self, expression, clock, left=()):
        """Notes the clock of an expression and of what is in it, and makes the instances."""
        form = expression[0]
        self.clocks[id(expression)] = clock
        if form == 'when':
            self.clock_names.add(expression[2][1])
            self.enter(expression[1], self.clock_of(expression[2][1]))
        elif form == 'current':
            self.enter(expression[1], self.determined(expression[1]))
            self.kept.append(expression[1])
        elif form == 'call':
            self.enter_call(expression, clock, left)
        elif form in ('map', 'red', 'fill'):
            self.enter_iterator(expression, clock)
        else:
            for part in parts(expression):
                self.enter(part, clock)
        if form == 'pre':
            self.kept.append(expression[1])
        if form == 'binary' and expression[1] == 'fby':
            self.kept.append(expression[3])

    def enter_call(self, expression, clock, left):
        _, name, statics, place, arguments = expression
        node = self.program.source.nodes[name]
        base = self.call_base(expression)
        if base is None and len(left) > 1:
            base = next(self.clock_of(v) for v, o in zip(left, node.outputs) if o.clock is None)
        elif base is None:
            below = self.from_caller(node, arguments, node.outputs[0].clock, left)
            base = clock[:len(clock) - len(below)]
        given = [lambda t, a=argument: self.value(a, t) for argument in arguments]
        label = '%s.%s@%s' % (self.label, name, place)
        self.children[id(expression)] = [self.child(label, name, statics, base, given)]
        for variable, argument in zip(node.inputs, arguments):
            self.enter(argument, base + self.from_caller(node, arguments, variable.clock))

    def child(self, label, name, statics, base, given):
        values = [static_value(expression, self.statics) for expression in statics]
        return Instance(self.program, label, name, values, lambda t: self.ticks(base, t), given)

    def enter_iterator(self, expression, clock):
        form, name, statics, size, place, arguments = expression
        determined = self.determined(expression)
        clock = clock if determined is None else determined
        self.clocks[id(expression)] = clock
        children = []
        for i in range(static_value(size, self.statics) if name not in OPERATORS else 0):
            given = [lambda t, a=argument, i=i: self.value(a, t)[i] for argument in arguments]
            if form != 'map':
                given[0] = self.accumulated(arguments[0], children)
            label = '%s.%s@%s[%d]' % (self.label, name, place, i)
            children.append(self.child(label, name, statics, clock, given))
        self.children[id(expression)] = children
        for argument in arguments:
            self.enter(argument, clock)

    def accumulated(self, first, children):
        """What the next instance of `red` or `fill` is handed."""
        if not children:
            return lambda t: self.value(first, t)
        before = children[-1]
        return lambda t: before.variable(before.node.outputs[0].name, t)

    def below(self):
        """This instance and all below it, in the order of the text."""
        found = [self]
        by_place = sorted(self.children.values(), key=lambda c: place_of(c[0]) if c else (0, 0))
        for children in by_place:
            for child in children:
                found += child.below()
        return found

    # Values

    def variable(self, name, t):
        key = (name, t)
        if key not in self.known:
            self.known[key] = self.variable_now(name, t)
        return self.known[key]

    def variable_now(self, name, t):
        if not self.ticks(self.clock_of(name), t):
            return ABSENT
        if name in self.arguments:
            return self.arguments[name](t)
        equation, place = self.defined[name]
        if len(equation.left) == 1:
            return self.value(equation.right, t)
        return self.results(equation.right, t)[place]

    def results(self, expression, t):
        """The results of a call or an iterator, at an instant at which its clock ticks."""
        children = self.children[id(expression)]
        outputs = [v.name for v in children[0].node.outputs]
        if expression[0] == 'call':
            return [children[0].variable(name, t) for name in outputs]
        arrays = [[child.variable(name, t) for child in children] for name in outputs]
        return arrays if expression[0] == 'map' else [arrays[0][-1]] + arrays[1:]

    def value(self, expression, t):
        """What an expression gives at an instant at which its clock ticks."""
        key = (id(expression), t)
        if key not in self.values:
            self.values[key] = self.value_now(expression, t)
        return self.values[key]

    def last_tick(self, clock, before):
        for u in range(before - 1, -1, -1):
            if self.ticks(clock, u):
                return u
        return None

    def value_now(self, expression, t):
        form = expression[0]
        if form in ('number', 'truth'):
            return expression[1]
        if form == 'name':
            name = expression[1]
            return self.variable(name, t) if name in self.declared else self.statics[name]
        if form == 'when':
            return self.value(expression[1], t)
        if form in ('pre', 'current'):
            clock = self.clocks[id(expression[1])]
            u = self.last_tick(clock, t if form == 'pre' else t + 1)
            if u is None:
                return filled(self.kind(expression), NIL)
            return self.value(expression[1], u)
        if form == 'if':
            condition = self.value(expression[1], t)
            if condition in (NIL, BAD):
                return filled(self.kind(expression), condition)
            return self.value(expression[2 if condition else 3], t)
        if form == 'negate':
            return strict(lambda a: in_range(-a), [self.value(expression[1], t)])
        if form == 'not':
            return strict(lambda a: not a, [self.value(expression[1], t)])
        if form in ('#', 'nor'):
            most = 1 if form == '#' else 0
            operands = [self.value(part, t) for part in expression[1]]
            return strict(lambda *truths: sum(truths) <= most, operands)
        if form == 'binary':
            return self.binary_value(expression, t)
        if form in ('map', 'red', 'fill') and expression[1] in OPERATORS:
            return self.symbol_value(expression, t)
        if form in ('call', 'map', 'red', 'fill'):
            return self.results(expression, t)[0]
        return self.array_value(expression, t)

    def binary_value(self, expression, t):
        _, sign, left, right = expression
        if sign == '|':
            return self.value(left, t) + self.value(right, t)
        if sign in ('->', 'fby'):
            u = self.last_tick(self.clocks[id(expression)], t)
            if u is None:
                return self.value(left, t)
            return self.value(right, t if sign == '->' else u)
        return strict(OPERATORS[sign], [self.value(left, t), self.value(right, t)])

    def symbol_value(self, expression, t):
        form, sign, arguments = expression[0], expression[1], expression[5]
        values = [self.value(argument, t) for argument in arguments]
        if form == 'map':
            return [strict(OPERATORS[sign], pair) for pair in zip(*values)]
        total = values[0]
        for element in values[1]:
            total = strict(OPERATORS[sign], [total, element])
        return total

    def array_value(self, expression, t):
        form, first = expression[0], expression[1]
        if form == 'array':
            return [self.value(part, t) for part in first]
        numbers = [static_value(part, self.statics) for part in expression[2:]]
        value = self.value(first, t)
        if form == 'copies':
            return [value] * numbers[0]
        if form == 'index':
            return value[numbers[0]]
        return value[numbers[0]:numbers[1] + 1]

    # Verdicts

    def has_fault(self, t):
        named = [self.variable(v.name, t) for v in self.variables]
        named += [self.value(e, t) for e in self.kept if self.ticks(self.clocks[id(e)], t)]
        named += [self.value(e, t) for e, clock in self.asserted if self.ticks(clock, t)]
        return any(holds(value, BAD) for value in named)

    def truths(self, t):
        """The values, at an instant, of the assertions that tick and of the clock variables."""
        asserted = [self.value(e, t) for e, clock in self.asserted if self.ticks(clock, t)]
        return asserted, [self.variable(name, t) for name in self.clock_names]


def parts(expression):
    """The expressions in an expression, in the order of the text."""
    form = expression[0]
    if form in ('number', 'truth', 'name'):
        return []
    if form in ('array', '#', 'nor'):
        return expression[1]
    if form in ('copies', 'index', 'slice', 'when'):
        return [expression[1]]
    if form == 'binary':
        return expression[2:]
    if form == 'call':
        return expression[4]
    if form in ('map', 'red', 'fill'):
        return expression[5]
    return expression[1:]


def place_of(child):
    """The line and the column at which an instance is called."""
    line, column = child.label.rsplit('@', 1)[1].split('[')[0].split(':')
    return int(line), int(column)


class Program:
    """The node under test and its observer, if there is one, on the rows of one trace."""

    def __init__(self, source, node, observer, rows):
        self.source, self.constants = source, constant_values(source)
        tested = source.nodes[node]
        given = [lambda t, i=i: rows[t][i] for i in range(len(tested.inputs))]
        main = Instance(self, node, node, [], lambda t: True, given)
        self.starts, self.judge = [main], main
        if observer:
            names = [v.name for v in tested.inputs + tested.outputs]
            wired = [lambda t, n=name: main.variable(n, t) for name in names]
            self.judge = Instance(self, observer, observer, [], lambda t: True, wired)
            self.starts.append(self.judge)
        self.instances = [i for start in self.starts for i in start.below()]
        self.instants = len(rows)

    def event(self, t):
        """The word of the verdict that is decided at an instant, or None."""
        if any(instance.has_fault(t) for instance in self.instances):
            return 'fault'
        asserted, wanted = [], [self.judge.variable(self.judge.node.outputs[0].name, t)]
        for instance in self.instances:
            own, clocks = instance.truths(t)
            asserted += own
            wanted += clocks
        if any(value is NIL for value in asserted + wanted):
            return 'undefined'
        if any(value is False for value in asserted):
            return 'assertion'
        return 'false' if wanted[0] is False else None

    def verdict(self):
        """The word of the verdict and the instant that decides, or None."""
        for t in range(self.instants):
            word = self.event(t)
            if word:
                return word, t
        return 'passed', None

    def columns(self, instances):
        """The scalar elements of the variables of some instances."""
        found = []
        for instance in instances:
            for variable in instance.variables:
                for path in paths(instance.kinds[variable.name]):
                    indexes = ''.join('[%d]' % i for i in path)
                    name = '%s.%s%s' % (instance.label, variable.name, indexes)
                    found.append(Column(name, instance, variable.name, path))
        return found


def paths(kind):
    """The indexes of the scalars of a type, the first slowest."""
    if isinstance(kind, str):
        return [()]
    return [(i,) + path for i in range(kind[1]) for path in paths(kind[0])]


def cell(column, t):
    """A cell of the values, as it is written."""
    value = column.instance.variable(column.variable, t)
    if value is ABSENT:
        return ''
    for i in column.path:
        value = value[i]
    if value is NIL:
        return '?'
    return '!' if value is BAD else str(int(value))


def values_csv(program, shows_all):
    """The values of a trace as `--show` writes them by `--format csv`, with `--all` or without."""
    _, last = program.verdict()
    columns = program.columns(program.instances if shows_all else program.starts)
    lines = [','.join(['instant'] + [column.name for column in columns])]
    for t in range(program.instants if last is None else last + 1):
        lines.append(','.join([str(t)] + [cell(column, t) for column in columns]))
    return '\n'.join(lines) + '\n'


def nested(kind, cells):
    """A value of a type out of cells that follow one another."""
    if isinstance(kind, str):
        text = next(cells)
        return text in ('1', 'true') if kind == 'bool' else int(text)
    return [nested(kind[0], cells) for _ in range(kind[1])]


def input_kinds(source, node):
    """The inputs of the node under test, each with its type."""
    constants = constant_values(source)
    found = []
    for variable in source.nodes[node].inputs:
        kind = variable.base
        for size in variable.sizes:
            kind = (kind, static_value(size, constants))
        found.append((variable.name, kind))
    return found


def columns_of(inputs):
    """The names of the scalar inputs, in the order of the source."""
    return [name + ''.join('[%d]' % i for i in path)
            for name, kind in inputs for path in paths(kind)]


def traces_of(source, node, text):
    """The traces of a text: a name and the rows of each, a row a value of each input."""
    inputs = input_kinds(source, node)
    header, *records = [line.split(',') for line in text.split('\n') if line]
    found = []
    for name, *cells in records:
        given = dict(zip(header[1:], cells))
        in_order = iter([given[column] for column in columns_of(inputs)])
        if not found or found[-1][0] != name:
            found.append((name, []))
        found[-1][1].append([nested(kind, in_order) for _, kind in inputs])
    return found
