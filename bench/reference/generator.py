"""Random programs.

Most are accepted. Some break a rule, since now and then a variable is taken that is on another
clock or would make a cycle; `breaking.py` breaks others in one place.
"""

from random import Random

from expressions import Expressions, Want, random_static
from calls import Made
from programs import BOOL, INT, Expression, Node, Program, Statement, Step, Type, Variable
from programs import binary, name, truth, unary

STYLES = ['even', 'even', 'clocks', 'iterators', 'calls', 'memories', 'numbers']
PLAIN_SHAPES = ['plain', 'plain', 'plain', 'red', 'fill', 'clocked']
SHAPES_OF_STYLE = {'iterators': ['plain', 'plain', 'red', 'red', 'fill', 'fill'],
                   'clocks': ['clocked', 'clocked', 'plain', 'red'],
                   'calls': ['clocked', 'plain', 'plain']}
OTHER_NAMES = ['map', 'red', 'fill', 'n9', 'n8']
LETTERS = 'xyzabcdehpqstuABCMST'


class Style:
    """What the nodes of one program have in common."""

    def __init__(self, random):
        self.name = random.choice(STYLES)
        self.small = random.random() < 0.5
        self.loose = self.wrong = 0
        kind = random.random()
        if kind < 0.4:
            self.loose = random.choice([0.05, 0.15, 0.3])  # variables that may make a cycle
        elif kind < 0.75:
            self.wrong = 0.03                              # variables on any clock


def random_program(seed):
    random = Random(seed)
    style = Style(random)
    values, constants = random_constants(random)
    nodes, callable_ = random_callees(random, style, values)
    observed = random.random() < 0.25
    kind = 'function' if random.random() < 0.05 else 'node'
    main = NodeMaker(random, style, values, callable_, 'main', kind,
                     'observed' if observed else 'main')
    nodes.append(main.node())
    if observed:
        nodes.append(random_observer(random, style, values, callable_, main.made))
    random.shuffle(nodes)
    random.shuffle(constants)
    return Program(constants, nodes, 'main', 'safe' if observed else None)


def random_callees(random, style, values):
    """Some nodes that may call one another, and what can be called of them."""
    nodes, callable_ = [], []
    least, most = (2, 5) if style.name in ('iterators', 'calls') else (0, 4)
    for index in range(random.randint(least, most)):
        own = 'n%d' % index if random.random() < 0.95 else OTHER_NAMES[index]
        shape = random.choice(SHAPES_OF_STYLE.get(style.name, PLAIN_SHAPES))
        kind = 'function' if random.random() < 0.25 else 'node'
        maker = NodeMaker(random, style, values, callable_, own, kind, shape)
        nodes.append(maker.node())
        # A node with the name of an iterator and with static parameters can not be called.
        if maker.cost < 40 and not (own in OTHER_NAMES[:3] and maker.parameters):
            callable_.append(maker.made)
    return nodes, callable_


def random_constants(random):
    """The values of some constants, and the constants."""
    values, constants = [], []
    for index in range(random.randint(0, 3)):
        value = random.choice([0, 1, 2, 3, 2, 3, -1, 7])
        constants.append(('K%d' % index, random_static(random, value, values)))
        values.append(('K%d' % index, value))
    if random.random() < 0.05:
        constants.append(('UNREACHED', ('binary', 'div', ('number', 1), ('number', 0))))
    return values, constants


def random_observer(random, style, values, made, main):
    cheap = [each for each in made if each.cost < 15]
    kind = 'function' if random.random() < 0.1 else 'node'
    inputs = [type_ for _, type_, _ in main.inputs + main.outputs]
    return NodeMaker(random, style, values, cheap, 'safe', kind, 'observer', inputs).node()


class NodeMaker(Expressions):
    """Makes one node. First its variables are declared, each with a plan of its equation, so that
    expressions can name variables that are defined later."""

    def __init__(self, random, style, values, callable_, own_name, kind, shape, inputs=None):
        self.random, self.style, self.callable = random, style, callable_
        self.name, self.kind, self.shape, self.given = own_name, kind, shape, inputs
        self.cost = 1
        self.parameters, self.roles = [], {}
        self.types = {}         # by name of a variable: its type and its clock
        self.available = []     # variables that an equation may need now
        self.remembered = {}    # by step: a variable that tells whether this clock has ticked
        self.inputs, self.outputs, self.plans = [], [], []
        self.some_parameters()
        hidden = [constant for constant, _ in values
                  if constant not in self.parameters and self.chance(0.06)]
        self.constants = [pair for pair in values if pair[0] not in self.parameters + hidden]
        letters = list(LETTERS) + ['v%d' % index for index in range(60)]
        if self.chance(0.5):
            random.shuffle(letters)
        self.names = [each for each in hidden + letters if each not in self.parameters]

    def node(self):
        self.some_inputs()
        count = (0, 2) if self.shape in ('red', 'fill') else (1, 6)
        for _ in range(self.random.randint(*count)):
            self.some_plan()
        self.some_outputs()
        statements = [self.equation(*plan) for plan in self.plans]
        while self.chance(0.22) and len(statements) < 14:
            statements.append(self.some_assertion())
        if self.chance(0.7):
            self.random.shuffle(statements)
        self.made = Made(self, self.inputs, self.outputs)
        others = [each for each in self.types if each not in self.inputs + self.outputs]
        if self.chance(0.5):
            self.random.shuffle(others)
        declared = [[self.declared(each) for each in names]
                    for names in (self.inputs, self.outputs, others)]
        return Node(self.kind, self.name, list(self.parameters), *declared, statements)

    def declared(self, variable):
        (kind, lengths), clock = self.types[variable]
        sizes = tuple(self.static(length) for length in reversed(lengths))
        return Variable(variable, kind, sizes, clock[-1] if clock else None)

    def some_parameters(self):
        if self.shape in ('main', 'observed', 'observer') or not self.chance(0.35):
            return
        for parameter in self.random.sample(['n', 'g', 'K0', 'w', 'K1'], self.random.randint(1, 2)):
            self.parameters.append(parameter)
            self.roles[parameter] = 'size' if self.chance(0.6) else 'gain'

    # Variables.

    def variable(self, type_, clock=()):
        new = self.names.pop(0)
        self.types[new] = (type_, clock)
        return new

    def input(self, type_, clock=()):
        new = self.variable(type_, clock)
        self.available.append(new)
        self.inputs.append(new)
        return new

    def scalar(self):
        return self.random.choice([BOOL, INT])

    def some_type(self):
        shape = self.random.random() * (1.25 if self.style.name == 'iterators' else 1)
        dimensions = 0 if shape < 0.68 else 1 if shape < 0.93 else 2
        lengths = [1, 2, 2, 3] + self.size_parameters() * 2
        return Type(self.scalar().kind,
                    tuple(self.random.choice(lengths) for _ in range(dimensions)))

    def some_clock(self, deepest=3):
        """The clock of some variable, or the base clock."""
        truths = [each for each in self.variables_of(BOOL, False)
                  if len(self.types[each][1]) < deepest]
        if not truths or self.chance(0.5):
            return ()
        variable = self.random.choice(truths)
        return self.types[variable][1] + (Step(variable, self.chance(0.6)),)

    def some_inputs(self):
        if self.shape == 'observer':
            for type_ in self.given:
                self.input(type_)
        elif self.shape == 'red':
            self.input(self.some_type() if self.chance(0.3) else self.scalar())
            for _ in range(self.random.choice([0, 1, 1, 1, 2])):
                self.input(self.some_type())
        elif self.shape == 'fill':
            self.input(self.scalar() if self.chance(0.8) else self.some_type())
        else:
            for _ in range(self.random.choice([0, 1, 2, 2, 3, 4])):
                self.input(self.some_type())
            self.further_inputs()

    def further_inputs(self):
        if self.shape in ('main', 'observed'):
            for type_ in (BOOL, INT):
                if self.chance(0.7):
                    self.input(type_)
        if self.shape == 'clocked' or (self.shape == 'plain' and self.chance(0.2)):
            clock = (Step(self.input(BOOL), self.chance(0.6)),)
            variable = self.input(self.some_type() if self.chance(0.6) else BOOL, clock)
            if self.types[variable][0] == BOOL and self.chance(0.6):
                self.input(self.some_type(), clock + (Step(variable, self.chance(0.6)),))
            if self.chance(0.3):
                self.input(self.some_type(), (Step(clock[0].variable, self.chance(0.5)),))
            if self.chance(0.3):
                self.random.shuffle(self.inputs)

    def some_outputs(self):
        first = self.types[self.inputs[0]][0] if self.inputs else None
        types = {'main': [BOOL], 'observer': [BOOL], 'red': [first], 'fill': [first]}
        if self.shape == 'fill':
            types['fill'] += [self.some_type() for _ in range(self.random.randint(1, 2))]
        for type_ in types.get(self.shape, []):
            output = self.variable(type_)
            self.plans.append(([output], None))
            self.outputs.append(output)
        if not self.outputs:
            self.outputs_of_plans()

    def outputs_of_plans(self):
        """Takes some variables as outputs, and those that their clocks name."""
        found = [each for left, _ in self.plans for each in left
                 if self.shape != 'observed' or not self.types[each][1]]
        if not found:
            found = [self.variable(self.some_type())]
            self.plans.append((found, None))
        count = min(len(found), self.random.choice([1, 1, 1, 2, 2, 3]))
        waiting = self.random.sample(found, count)
        while waiting:
            output = waiting.pop()
            if output not in self.inputs + self.outputs:
                self.outputs.append(output)
                waiting += [step.variable for step in self.types[output][1]]
        if self.chance(0.5):
            self.random.shuffle(self.outputs)

    # Plans of equations: the left side, and a function that makes the right side, or None.

    def some_plan(self):
        kind = self.random.random()
        several = 0.4 if self.style.name in ('iterators', 'calls') else 0.22
        if kind < several and self.plan_several():
            return
        if kind < 0.3 and self.kind == 'node' and self.plan_remembered():
            return
        if kind < 0.36:
            self.plan_array()
        else:
            type_ = self.some_type() if self.chance(0.6) else BOOL
            self.plans.append(([self.variable(type_, self.some_clock())], None))

    def plan_several(self):
        """An equation with several results."""
        found = self.several_results(Want(None, self.some_clock(), 2, True))
        if found is None:
            return False
        make, results = found
        left = [self.variable(type_) for type_, _ in results]
        for variable, (type_, clock) in zip(left, results):
            steps = [Step(left[step.variable] if isinstance(step.variable, int) else step.variable,
                          step.sign) for step in clock]
            self.types[variable] = (type_, tuple(steps))
        self.plans.append((left, make))
        return True

    def plan_remembered(self):
        """`h = c or (false -> pre h)`: it remembers whether c was true."""
        truths = [each for each in self.variables_of(BOOL, False)
                  if len(self.types[each][1]) < 2]
        if not truths:
            return False
        step = Step(self.random.choice(truths), self.chance(0.6))
        memory = self.variable(BOOL, self.types[step.variable][1])
        self.remembered[step] = memory
        ticks = name(step.variable) if step.sign else unary('not', name(step.variable))
        before = Expression('arrow', [truth(False), Expression('pre', [name(memory)])])
        self.plans.append(([memory], lambda: binary('or', ticks, before)))
        return True

    def plan_array(self):
        """An array whose elements are made of other elements of it, as `A = [x, A[0]]`."""
        kind, length = self.scalar().kind, self.random.randint(2, 3)
        array = self.variable(Type(kind, (length,)))
        self.plans.append(([array], lambda: self.array_of_itself(array, kind, length)))

    def array_of_itself(self, array, kind, length):
        order = self.random.sample(range(length), length)
        elements = [None] * length
        for count, position in enumerate(order):
            element = self.expression(Want(Type(kind, ()), (), 1, True))
            if count or self.chance(0.05):
                other = self.static(self.random.choice(order[:count] or [position]))
                own = Expression('index', [name(array)], other)
                if self.chance(0.4):
                    condition = self.expression(Want(BOOL, (), 1, True))
                    element = Expression('if', [condition, element, own])
                else:
                    element = own
            elements[position] = element
        return Expression('array', elements)

    def equation(self, left, make):
        type_, clock = self.types[left[0]]
        if make:
            right = make()
        else:
            want = Want(type_, clock, self.random.choice([1, 2, 2, 3, 3, 4]), True)
            right = self.expression(want)
            if self.shape in ('main', 'observer') and left == self.outputs:
                right = self.often_true(right, 0.65)
            elif self.kind == 'node' and type_ == BOOL and self.chance(0.35):
                right = Expression('arrow', [self.leaf(want), right])
        self.available += left
        return Statement(left, right)

    def often_true(self, expression, part):
        """`e or true`, which is false nowhere: so traces run on, and show later instants."""
        return binary('or', expression, truth(True)) if self.chance(part) else expression

    def some_assertion(self):
        clock = self.types[self.random.choice(list(self.types))][1] if self.types else ()
        right = self.expression(Want(BOOL, clock, 2, True))
        if clock and not self.determines(right):
            right = self.slower(self.expression(Want(BOOL, clock[:-1], 1, True)), clock)
        return Statement(None, self.often_true(right, 0.6))
