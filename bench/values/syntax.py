"""Reads the text of a source into trees. The source must be an accepted one: nothing is refused.

An expression is a tuple of its form and its parts, as ('binary', '+', a, b). Static expressions
have the forms 'number', 'name', 'negate' and 'binary'.
"""

import re
from collections import namedtuple

Source = namedtuple('Source', 'constants nodes')
Node = namedtuple('Node', 'name parameters inputs outputs locals equations assertions')
# base is 'int' or 'bool'; sizes are static expressions, the outermost last; clock is (sign, name)
Variable = namedtuple('Variable', 'name base sizes clock')
Equation = namedtuple('Equation', 'left right')

TOKEN = re.compile(
    r'(?P<space>\s+|--[^\n]*|\(\*.*?\*\)|/\*.*?\*/)'
    r'|(?P<name>[A-Za-z_]\w*)|(?P<number>[0-9]+)'
    r'|(?P<symbol>->|=>|<>|<=|>=|<<|>>|\.\.|[.;:,()\[\]=<>+\-*/^|#])', re.S)

# The levels of infix operators, and how those group.
LEVELS = {'|': (1, 'left'), '->': (3, 'right'), 'fby': (3, 'right'), '=>': (4, 'right'),
          'or': (5, 'left'), 'xor': (5, 'left'), 'and': (6, 'left'),
          '=': (7, 'none'), '<>': (7, 'none'), '<': (7, 'none'), '<=': (7, 'none'),
          '>': (7, 'none'), '>=': (7, 'none'), '+': (9, 'left'), '-': (9, 'left'),
          '*': (10, 'left'), '/': (10, 'left'), 'div': (10, 'left'), 'mod': (10, 'left')}
PREFIXES = {'if': 2, 'not': 8, '-': 12, 'pre': 12, 'current': 12}
WHEN, POSTFIX = 11, 13
ITERATORS = ('map', 'red', 'fill')


def tokens(text):
    """The tokens of a text, each with its place as `line:column`, and an empty one at the end."""
    found, at, line, start = [], 0, 1, 0
    while at < len(text):
        match = TOKEN.match(text, at)
        if match.lastgroup != 'space':
            found.append((match.group(), '%d:%d' % (line, at - start + 1)))
        for end in re.finditer('\n', match.group()):
            line, start = line + 1, at + end.end()
        at = match.end()
    return found + [('', '')]


class Reader:
    """The tokens of a text, and how far they have been read."""

    def __init__(self, text):
        self.tokens = tokens(text)
        self.at = 0

    def peek(self, ahead=0):
        return self.tokens[min(self.at + ahead, len(self.tokens) - 1)][0]

    def take(self):
        self.at += 1
        return self.tokens[self.at - 1][0]

    def place(self):
        return self.tokens[self.at][1]

    def skip(self, *symbols):
        """Whether one of some tokens comes next; it is taken."""
        if self.peek() in symbols:
            self.at += 1
            return True
        return False

    def expect(self, symbol):
        if not self.skip(symbol):
            raise ValueError('%s: %s is wanted' % (self.place(), symbol))

    def list_of(self, item, end):
        """Items with commas between them, up to a symbol."""
        items = []
        while not self.skip(end):
            items.append(item())
            self.skip(',', ';')
        return items

    # Sources

    def source(self):
        constants, nodes = {}, {}
        while self.peek():
            if self.skip('const'):
                while self.peek() and self.peek() not in ('const', 'node', 'function'):
                    name = self.take()
                    if self.skip(':'):
                        self.expect('int')
                    self.expect('=')
                    constants[name] = self.static()
                    self.expect(';')
            else:
                self.take()
                node = self.node()
                nodes[node.name] = node
        return Source(constants, nodes)

    def node(self):
        name = self.take()
        parameters = self.list_of(self.parameter, '>>') if self.skip('<<') else []
        self.expect('(')
        inputs = self.variables(')')
        self.expect('returns')
        self.expect('(')
        outputs = self.variables(')')
        self.skip(';')
        own, equations, assertions = [], [], []
        while self.skip('var'):
            while self.peek() not in ('let', 'var'):
                own += self.declared()
                self.expect(';')
        self.expect('let')
        while not self.skip('tel'):
            if self.skip('assert'):
                assertions.append(self.expression())
            else:
                equations.append(self.equation())
            self.expect(';')
        self.skip(';', '.')
        return Node(name, parameters, inputs, outputs, own, equations, assertions)

    def parameter(self):
        self.expect('const')
        name = self.take()
        self.expect(':')
        self.expect('int')
        return name

    def variables(self, end):
        found = []
        while not self.skip(end):
            found += self.declared()
            self.skip(';')
        return found

    def declared(self):
        names = [self.take()]
        while self.skip(','):
            names.append(self.take())
        self.expect(':')
        base, sizes = self.take(), []
        while self.skip('^'):
            sizes.append(self.static())
        clock = self.clock() if self.skip('when') else None
        return [Variable(name, base, sizes, clock) for name in names]

    def clock(self):
        sign = not self.skip('not')
        if self.skip('('):
            name = self.take()
            self.expect(')')
        else:
            name = self.take()
        return sign, name

    def equation(self):
        grouped = self.skip('(')
        left = [self.take()]
        while self.skip(','):
            left.append(self.take())
        if grouped:
            self.expect(')')
        self.expect('=')
        return Equation(left, self.expression())

    # Static expressions

    def static(self, least=0):
        left = self.static_atom()
        while self.peek() in ('+', '-', '*', '/', 'div', 'mod') and LEVELS[self.peek()][0] >= least:
            sign = self.take()
            left = ('binary', sign, left, self.static(LEVELS[sign][0] + 1))
        return left

    def static_atom(self):
        if self.skip('('):
            inner = self.static()
            self.expect(')')
            return inner
        if self.skip('-'):
            return ('negate', self.static_atom())
        token = self.take()
        return ('number', int(token)) if token.isdigit() else ('name', token)

    # Expressions

    def expression(self, least=0):
        left = self.operand()
        while True:
            sign = self.peek()
            if sign == 'when' and WHEN >= least:
                self.take()
                left = ('when', left, self.clock())
            elif sign in LEVELS and LEVELS[sign][0] >= least:
                level, grouping = LEVELS[self.take()]
                right = self.expression(level if grouping == 'right' else level + 1)
                left = ('binary', sign, left, right)
            else:
                return left

    def operand(self):
        sign = self.peek()
        if sign not in PREFIXES:
            return self.postfix(self.atom())
        self.take()
        if sign == 'if':
            condition = self.expression()
            self.expect('then')
            chosen = self.expression()
            self.expect('else')
            return ('if', condition, chosen, self.expression(PREFIXES['if']))
        form = {'-': 'negate'}.get(sign, sign)
        return (form, self.expression(PREFIXES[sign]))

    def postfix(self, left):
        while True:
            if self.skip('^'):
                left = ('copies', left, self.static_atom())
            elif self.skip('['):
                first = self.static()
                if self.skip('..'):
                    left = ('slice', left, first, self.static())
                else:
                    left = ('index', left, first)
                self.expect(']')
            else:
                return left

    def atom(self):
        place, token = self.place(), self.take()
        if token == '(':
            inner = self.expression()
            self.expect(')')
            return inner
        if token == '[':
            return ('array', self.list_of(self.expression, ']'))
        if token in ('#', 'nor'):
            self.expect('(')
            return (token, self.list_of(self.expression, ')'))
        if token.isdigit():
            return ('number', int(token))
        if token in ('true', 'false'):
            return ('truth', token == 'true')
        if token in ITERATORS and self.peek() == '<<':
            return self.iterator(token)
        arguments = self.list_of(self.static, '>>') if self.skip('<<') else []
        if self.skip('('):
            return ('call', token, arguments, place, self.list_of(self.expression, ')'))
        return ('name', token)

    def iterator(self, form):
        self.expect('<<')
        place, applied = self.place(), self.take()
        arguments = self.list_of(self.static, '>>') if self.skip('<<') else []
        self.skip(',', ';')
        size = self.static()
        self.expect('>>')
        self.expect('(')
        return (form, applied, arguments, size, place, self.list_of(self.expression, ')'))


def read(text):
    """The trees of a source."""
    return Reader(text).source()
