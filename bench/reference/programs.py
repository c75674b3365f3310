"""The tree of a program.

A static expression is a tuple: `('number', 3)`, `('name', 'K')`, `('minus', s)` or
`('binary', '+', s, t)`. A step of a clock, as in `when not c`, is `Step('c', False)`; a whole clock
is a tuple of steps, the slowest last, so the base clock is `()`.
"""

from collections import namedtuple

LEAST, GREATEST = -2147483648, 2147483647

Step = namedtuple('Step', 'variable sign')
Type = namedtuple('Type', 'kind lengths')              # lengths: outermost first
Variable = namedtuple('Variable', 'name kind sizes clock')  # sizes: static, as written
Call = namedtuple('Call', 'name arguments')
# Of a symbol, as in map<<+, 3>>, the arguments are None.
Iterator = namedtuple('Iterator', 'kind name arguments size')
Statement = namedtuple('Statement', 'left right')      # left is None in an assertion

BOOL, INT = Type('bool', ()), Type('int', ())
SYMBOLS = {'+': 'int', '-': 'int', '*': 'int', 'and': 'bool', 'or': 'bool', 'xor': 'bool'}
MEMORIES = ('pre', 'arrow', 'fby', 'current')


def width(type_):
    """The number of scalar elements."""
    product = 1
    for length in type_.lengths:
        product *= length
    return product


class Expression:
    """A form, its operands, and what else it holds.

    | form | detail |
    |---|---|
    | number, truth, name | the value, the name |
    | unary, binary, many | the operator; `many` are # and nor |
    | when | a Step |
    | power, index | a static expression |
    | slice | two static expressions |
    | call, iterator | a Call, an Iterator |
    | parentheses, if, arrow, fby, pre, current, array, join | nothing |

    The number tells it from all other expressions of a program that is judged.
    """
    __slots__ = ('form', 'operands', 'detail', 'number')

    def __init__(self, form, operands=(), detail=None):
        self.form, self.operands, self.detail = form, list(operands), detail
        self.number = None

    def copy(self):
        return Expression(self.form, [operand.copy() for operand in self.operands], self.detail)

    def walk(self):
        """This expression and all inside it, in the order in which they begin in the text."""
        yield self
        for operand in self.operands:
            yield from operand.walk()

    def bare(self):
        """The expression inside all parentheses."""
        return self.operands[0].bare() if self.form == 'parentheses' else self

    def is_symbol(self):
        """Whether this iterates a symbol, as map<<+, 3>> does."""
        return self.form == 'iterator' and self.detail.arguments is None

    def applies_node(self):
        return self.form == 'call' or (self.form == 'iterator' and not self.is_symbol())


class Node:
    """A node or a function, as `kind` says."""

    def __init__(self, kind, name, parameters, inputs, outputs, locals_, statements):
        self.kind, self.name, self.parameters = kind, name, parameters
        self.inputs, self.outputs, self.locals = inputs, outputs, locals_
        self.statements = statements

    def copy(self):
        statements = [Statement(left and list(left), right.copy())
                      for left, right in self.statements]
        return Node(self.kind, self.name, list(self.parameters), list(self.inputs),
                    list(self.outputs), list(self.locals), statements)

    def variables(self):
        return self.inputs + self.outputs + self.locals

    def names(self):
        return [variable.name for variable in self.variables()]

    def expressions(self):
        """All expressions, in the order in which they begin in the text."""
        for statement in self.statements:
            yield from statement.right.walk()

    def clock_parameters(self):
        """The inputs and outputs that are clocks of other ones, for a caller too."""
        return {variable.clock.variable for variable in self.inputs + self.outputs
                if variable.clock}


class Program:
    """Constants, each with its static expression, nodes, and the names of two of the nodes: the
    node under test, and the observer or None."""

    def __init__(self, constants, nodes, main, observer=None):
        self.constants, self.nodes = constants, nodes
        self.main, self.observer = main, observer

    def copy(self):
        return Program(list(self.constants), [node.copy() for node in self.nodes], self.main,
                       self.observer)

    def start_names(self):
        return [self.main] + ([self.observer] if self.observer else [])

    def options(self):
        """The words of the command line that name the node under test and the observer."""
        return ['--node', self.main] + (['--observe', self.observer] if self.observer else [])

    def number_expressions(self):
        number = 0
        for node in self.nodes:
            for expression in node.expressions():
                expression.number = number
                number += 1


class Place:
    """Where an expression stands: as the right side of a statement, or as an operand."""

    def __init__(self, node, owner, position):
        self.node, self.owner, self.position = node, owner, position

    def get(self):
        if isinstance(self.owner, Node):
            return self.owner.statements[self.position].right
        return self.owner.operands[self.position]

    def put(self, expression):
        if isinstance(self.owner, Node):
            left = self.owner.statements[self.position].left
            self.owner.statements[self.position] = Statement(left, expression)
        else:
            self.owner.operands[self.position] = expression


def places(program):
    """The places of all expressions of a program, each outer one before those inside it."""
    def inside(place):
        yield place
        expression = place.get()
        for position in range(len(expression.operands)):
            yield from inside(Place(place.node, expression, position))
    for node in program.nodes:
        for position in range(len(node.statements)):
            yield from inside(Place(node, node, position))


def statics(expression):
    """The static expressions of one form, each with its role: size, index or argument."""
    form, detail = expression.form, expression.detail
    if form == 'power':
        return [('size', detail)]
    if form == 'index':
        return [('index', detail)]
    if form == 'slice':
        return [('index', end) for end in detail]
    if form == 'call':
        return [('argument', static) for static in detail.arguments]
    if form == 'iterator':
        return [('argument', static) for static in detail.arguments or []] + [('size', detail.size)]
    return []


def static_names(static):
    """The names in a static expression."""
    if static[0] == 'name':
        yield static[1]
    elif static[0] == 'minus':
        yield from static_names(static[1])
    elif static[0] == 'binary':
        yield from static_names(static[2])
        yield from static_names(static[3])


def name(text):
    return Expression('name', [], text)


def truth(value):
    return Expression('truth', [], value)


def unary(operator, operand):
    return Expression('unary', [operand], operator)


def binary(operator, left, right):
    return Expression('binary', [left, right], operator)


def number(value):
    """An expression with this value. The least number is written -2147483647 - 1."""
    if value >= 0:
        return Expression('number', [], value)
    if value == LEAST:
        return binary('-', number(-GREATEST), number(1))
    return unary('-', number(-value))
