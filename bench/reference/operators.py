"""Programs with one data operator each, and traces with all pairs of operands from a table: the
bounds of `int`, small numbers, nil and `bad`.

The operand a is `if ka = 0 then pre 0 else if ka = 1 then 1 div 0 else va`, with ka and va from the
trace. The property compares the value r with the input w, which is what it should be.
"""

import itertools

from programs import (BOOL, INT, SYMBOLS, Expression, Iterator, Node, Program, Statement, Variable,
                      binary, name, number, truth, unary)
from values import BAD, BINARY, MANY, NIL, UNARY, strict

NUMBERS = [-2147483648, -2147483647, -65536, -46341, -46340, -7, -3, -2, -1, 0, 1, 2, 3, 7, 46340,
           46341, 65536, 2147483646, 2147483647]
ARITHMETIC = ['+', '-', '*', '/', 'div', 'mod']
ORDERS = ['<', '<=', '>', '>=']
EQUALITIES = ['=', '<>']
LOGIC = ['and', 'or', 'xor', '=>']
NIL_KIND, BAD_KIND, VALUE_KIND = 0, 1, 2


def operand(letter, type_):
    """The operand for a letter, which is nil, `bad` or a value, as the trace says."""
    kind = name('k' + letter)
    nil = Expression('pre', [number(0) if type_ == INT else truth(False)])
    bad = binary('div', number(1), number(0))
    if type_ == BOOL:
        bad = binary('=', bad, number(0))
    value = Expression('if', [binary('=', kind, number(BAD_KIND)), bad, name('v' + letter)])
    return Expression('if', [binary('=', kind.copy(), number(NIL_KIND)), nil, value])


def operand_values(type_):
    """For each value of an operand, its kind and the cell of the value."""
    usual = NUMBERS if type_ == INT else [False, True]
    return [(NIL_KIND, usual[0]), (BAD_KIND, usual[0])] + [(VALUE_KIND, each) for each in usual]


def value_of(kind, cell):
    return {NIL_KIND: NIL, BAD_KIND: BAD}.get(kind, cell)


class Operator:
    """An operator with the type of its operands, that of its result, and its plain function."""

    def __init__(self, own_name, count, types, make, function):
        self.name, self.count, (self.type, self.result) = own_name, count, types
        self.make, self.function = make, function

    def program(self):
        letters = 'abcd'[:self.count]
        inputs = [variable for letter in letters
                  for variable in (declared('k' + letter, INT), declared('v' + letter, self.type))]
        right = self.make([operand(letter, self.type) for letter in letters])
        equals = binary('=', name('r'), name('w'))
        node = Node('node', 'main', [], inputs + [declared('w', self.result)],
                    [declared('ok', BOOL)], [declared('r', self.result)],
                    [Statement(['r'], right), Statement(['ok'], equals)])
        return Program([], [node], 'main')

    def traces(self):
        """For each choice of operands two traces of one instant: w is the value, and is not."""
        found = []
        for cells in itertools.product(operand_values(self.type), repeat=self.count):
            value = strict(self.function, [value_of(*cell) for cell in cells])
            usual = 0 if self.result == INT else False
            wanted = usual if value in (NIL, BAD) else value
            other = not wanted if self.result == BOOL else int(wanted == 0)
            for last in (wanted, other):
                record = [each for cell in cells for each in cell] + [last]
                found.append(('t%d' % len(found), [record]))
        return found


def declared(own_name, type_):
    return Variable(own_name, type_.kind, (), None)


def iterated(kind, symbol, first, second):
    detail = Iterator(kind, symbol, None, ('number', 2))
    return Expression('iterator', [first, second], detail)


def mapped(symbol, operands):
    """Element 1 of the map of a symbol over [b, a] and [a, b]: the symbol on a and b."""
    left, right = operands
    other = [left.copy(), right.copy()]
    arrays = [Expression('array', [right, left]), Expression('array', [other[0], other[1]])]
    return Expression('index', [iterated('map', symbol, *arrays)], ('number', 1))


def reduced(symbol, operands):
    """The symbol on a, and then on b and a."""
    left, right = operands
    return iterated('red', symbol, left, Expression('array', [right, left.copy()]))


def twice(function):
    """From the operator on a and b to (a o b) o a."""
    return lambda a, b: strict(function, [function(a, b), a])


def operators():
    for types, symbols in (((INT, INT), ARITHMETIC), ((INT, BOOL), ORDERS + EQUALITIES),
                           ((BOOL, BOOL), LOGIC + EQUALITIES)):
        for symbol in symbols:
            yield Operator(symbol, 2, types, lambda operands, own=symbol: binary(own, *operands),
                           BINARY[symbol])
    for symbol, type_ in (('-', INT), ('not', BOOL)):
        yield Operator(symbol, 1, (type_, type_),
                       lambda operands, own=symbol: unary(own, *operands), UNARY[symbol])
    for symbol, count in itertools.product(MANY, (1, 2, 3, 4)):
        yield Operator(symbol, count, (BOOL, BOOL),
                       lambda operands, own=symbol: Expression('many', operands, own),
                       MANY[symbol])
    yield Operator('if', 3, (BOOL, BOOL), lambda operands: Expression('if', operands),
                   lambda condition, one, other: one if condition else other)
    yield from iterators()


def iterators():
    for symbol, kind in SYMBOLS.items():
        types, function = (INT, INT) if kind == 'int' else (BOOL, BOOL), BINARY[symbol]
        yield Operator('map ' + symbol, 2, types,
                       lambda operands, own=symbol: mapped(own, operands), function)
        yield Operator('red ' + symbol, 2, types,
                       lambda operands, own=symbol: reduced(own, operands), twice(function))
