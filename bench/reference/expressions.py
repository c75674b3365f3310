"""Random expressions of a wanted type, on a wanted clock."""

from collections import namedtuple

from calls import Calls
from programs import BOOL, GREATEST, INT, LEAST, Expression, Step, Type, binary, name, number
from programs import truth, unary

FORMS = ['leaf', 'leaf', 'if', 'arrow', 'fby', 'guarded_pre', 'pre', 'when', 'when', 'current',
         'current', 'call', 'call', 'iterator', 'index', 'parentheses'] + ['operator'] * 4
# What a program of some style has more of.
FORMS_OF_STYLE = {'clocks': ['when', 'current', 'current', 'call'], 'iterators': ['iterator'] * 7,
                  'calls': ['call'] * 6, 'numbers': ['operator'] * 6,
                  'memories': ['fby', 'guarded_pre', 'pre', 'current']}
USUAL = [0, 1, 1, 2, 2, 3, 3, 4, 5, -1, -2, 7]
FAR = [GREATEST, LEAST, GREATEST - 1, -GREATEST, 46341, 65536, -46341]


class Want(namedtuple('Want', 'type clock depth now')):
    """What an expression has to be. Where `now` holds it is over variables that are defined
    before, so that no cycle of needs comes of it."""

    def inner(self, **changes):
        return self._replace(depth=self.depth - 1, **changes)


def random_static(random, value, constants):
    """A static expression with this value, over constants, each given as its name and value."""
    same = [each for each, its_value in constants if its_value == value]
    shape = random.random()
    if same and shape < 0.35:
        return ('name', random.choice(same))
    if shape < 0.75 or abs(value) > 100:
        return ('number', value) if value >= 0 else ('minus', ('number', -value))
    step = random.randint(0, 3)
    operator = random.choice(['+', '-', '*', 'div', '/', 'minus', 'mod'])
    if operator in ('+', '-'):
        rest = value - step if operator == '+' else value + step
        return ('binary', operator, random_static(random, rest, constants),
                random_static(random, step, constants))
    if operator == '*':
        return ('binary', '*', random_static(random, value, constants), ('number', 1))
    if operator in ('div', '/'):
        large = ('number', abs(value) * 3 + 2)
        return ('binary', operator, large if value >= 0 else ('minus', large), ('number', 3))
    if operator == 'mod' and value >= 0:
        return ('binary', 'mod', ('number', 8 * value + 7), ('number', 7 * value + 7))
    return ('minus', ('minus', ('number', value)) if value >= 0 else ('number', -value))


class Expressions(Calls):
    """Random expressions of one node."""

    def expression(self, want):
        if self.style.small:
            want = want._replace(depth=min(want.depth, 2))
        forms = FORMS + FORMS_OF_STYLE.get(self.style.name, [])
        for _ in range(6 if want.depth > 0 else 0):
            made = getattr(self, 'some_' + self.random.choice(forms))(want)
            if made is not None:
                return made
        return self.leaf(want)

    def chance(self, part):
        return self.random.random() < part

    def static(self, value):
        """A static expression for a length: a number, or the name of a static parameter."""
        if isinstance(value, str):
            return ('name', value)
        return random_static(self.random, value, self.constants)

    def some_length(self):
        return self.random.choice([1, 2, 2, 3] + self.size_parameters())

    def size_parameters(self):
        return [parameter for parameter in self.parameters if self.roles[parameter] == 'size']

    def variables_of(self, type_, now, clock=None):
        """The variables of a type, on a clock or on any."""
        names = self.available if now else list(self.types)
        return [each for each in names
                if self.types[each] == (type_, self.types[each][1] if clock is None else clock)]

    def candidates(self, want):
        now = want.now and not self.chance(self.style.loose)
        return self.variables_of(want.type, now, want.clock)

    def leaf(self, want):
        if self.chance(self.style.wrong):
            others = self.variables_of(want.type, want.now)
            if others:
                return name(self.random.choice(others))
        if self.chance(self.style.wrong / 3):
            others = self.variables_of(BOOL, want.now)
            if others:
                step = Step(self.random.choice(others), self.chance(0.5))
                return Expression('when', [self.literal(want)], step)
        candidates = self.candidates(want)
        if candidates and self.chance(0.82):
            return name(self.random.choice(candidates))
        if want.clock and self.chance(0.5):
            return self.slower(self.leaf(want._replace(clock=want.clock[:-1])), want.clock)
        return self.literal(want)

    def slower(self, expression, clock):
        return Expression('when', [expression], clock[-1])

    def literal(self, want):
        kind, lengths = want.type
        if lengths:
            inner = want._replace(type=Type(kind, lengths[1:]))
            if isinstance(lengths[0], str) or self.chance(0.5):
                return Expression('power', [self.leaf(inner)], self.static(lengths[0]))
            return Expression('array', [self.leaf(inner) for _ in range(lengths[0])])
        if kind == 'bool':
            return truth(self.chance(0.6))
        shape = self.random.random()
        if shape < 0.12 and self.parameters:
            return name(self.random.choice(self.parameters))
        if shape < 0.25 and self.constants:
            return name(self.random.choice(self.constants)[0])
        return number(self.random.choice(FAR if shape < 0.31 else USUAL))

    # One method for each form. It gives None where the form does not fit.

    def some_leaf(self, want):
        return self.leaf(want)

    def some_if(self, want):
        operands = [self.expression(want.inner(type=BOOL))]
        operands += [self.expression(want.inner()) for _ in range(2)]
        return Expression('if', operands)

    def some_arrow(self, want):
        if self.kind == 'function':
            return None
        return Expression('arrow', [self.expression(want.inner()) for _ in range(2)])

    def some_fby(self, want):
        if self.kind == 'function':
            return None
        return Expression('fby', [self.expression(want.inner()),
                                  self.expression(want.inner(now=False))])

    def some_guarded_pre(self, want):
        if self.kind == 'function':
            return None
        memory = Expression('pre', [self.expression(want.inner(now=False))])
        return Expression('arrow', [self.expression(want.inner()), memory])

    def some_pre(self, want):
        if self.kind == 'function' or not self.chance(0.25):
            return None
        return Expression('pre', [self.expression(want.inner(now=False))])

    def some_when(self, want):
        if not want.clock:
            return None
        operand = self.expression(want.inner(clock=want.clock[:-1]))
        return self.slower(operand, want.clock)

    def some_current(self, want):
        """Often with a guard: a variable that remembers whether the clock has ticked."""
        if self.kind == 'function' or len(want.clock) >= 3:
            return None
        clocks = self.candidates(want._replace(type=BOOL))
        if not clocks:
            return None
        step = self.some_step(clocks)
        inside = self.expression(want.inner(clock=want.clock + (step,)))
        if not self.determines(inside):
            inside = Expression('when', [self.leaf(want)], step)
        made = Expression('current', [inside])
        guard = self.remembered.get(step)
        if guard and (not want.now or guard in self.available) and self.chance(0.8):
            return Expression('if', [name(guard), made, self.leaf(want)])
        return Expression('arrow', [self.leaf(want), made]) if self.chance(0.4) else made

    def some_step(self, clocks):
        guarded = [step for step in self.remembered if step.variable in clocks]
        if guarded and self.chance(0.6):
            return self.random.choice(guarded)
        return Step(self.random.choice(clocks), self.chance(0.6))

    def determines(self, expression):
        """Whether something inside an expression determines its clock."""
        return any(inside.form == 'when' or (inside.form == 'name' and inside.detail in self.types)
                   for inside in expression.walk())

    def some_parentheses(self, want):
        return Expression('parentheses', [self.expression(want.inner())])

    def some_index(self, want):
        kind, lengths = want.type
        if len(lengths) >= 2:
            return None
        length = self.random.choice([1, 2, 3] + self.size_parameters())
        if isinstance(length, str):
            last = ('binary', '-', ('name', length), ('number', 1))
            index = self.random.choice([('number', 0), last])
        else:
            index = self.static(self.random.randrange(length))
        operand = self.expression(want.inner(type=Type(kind, (length,) + lengths)))
        return Expression('index', [operand], index)

    def some_operator(self, want):
        if want.type.lengths:
            return self.some_array(want)
        if want.type == INT:
            if self.chance(0.1):
                return unary('-', self.expression(want.inner()))
            operator = self.random.choice(['+', '+', '-', '-', '*', 'div', '/', 'mod'])
            return binary(operator, self.expression(want.inner()), self.expression(want.inner()))
        return self.some_truth(want)

    def some_truth(self, want):
        shape = self.random.random()
        if shape < 0.12:
            return unary('not', self.expression(want.inner()))
        if shape < 0.25:
            operands = [self.expression(want.inner()) for _ in range(self.random.randint(1, 4))]
            return Expression('many', operands, self.random.choice(['#', 'nor']))
        operators, type_ = ['and', 'or', 'xor', '=>', '=', '<>'], BOOL
        if shape >= 0.6:
            operators, type_ = ['<', '<=', '>', '>=', '=', '<>'], INT
        left, right = [self.expression(want.inner(type=type_)) for _ in range(2)]
        return binary(self.random.choice(operators), left, right)

    def some_array(self, want):
        (kind, (length, *inner)), shape = want.type, self.random.random()

        def operand(*lengths):
            return self.expression(want.inner(type=Type(kind, lengths + tuple(inner))))
        if isinstance(length, str):
            shape += 0.3
        if shape < 0.3:
            return Expression('array', [operand() for _ in range(length)])
        if shape < 0.5 or isinstance(length, str):
            return Expression('power', [operand()], self.static(length))
        if shape < 0.75 and length >= 2:
            first = self.random.randint(1, length - 1)
            return Expression('join', [operand(first), operand(length - first)])
        whole = self.random.randint(length, length + 2)
        first = self.random.randint(0, whole - length)
        ends = (self.static(first), self.static(first + length - 1))
        return Expression('slice', [operand(whole)], ends)
