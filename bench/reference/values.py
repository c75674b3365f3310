"""Values and the data operators: docs/LANGUAGE.md, section 12."""

from programs import GREATEST, LEAST

# Beside numbers and truths a scalar is NIL or BAD, and ABSENT where its clock does not tick.
NIL, BAD, ABSENT = '?', '!', None


class Refusal(Exception):
    """The program is refused with this number, as 13 for E13; the text says by what."""

    def __init__(self, number, text=''):
        super().__init__(number, text)
        self.number, self.text = number, text


def in_range(value):
    return value if LEAST <= value <= GREATEST else BAD


def quotient(a, b):
    """The quotient, cut toward zero: of -7 and 2 it is -3."""
    if b == 0:
        return BAD
    absolute = abs(a) // abs(b)
    return in_range(-absolute if (a < 0) != (b < 0) else absolute)


def remainder(a, b):
    whole = quotient(a, b)
    return BAD if whole is BAD else a - b * whole


BINARY = {
    '+': lambda a, b: in_range(a + b),
    '-': lambda a, b: in_range(a - b),
    '*': lambda a, b: in_range(a * b),
    '/': quotient,
    'div': quotient,
    'mod': remainder,
    '<': lambda a, b: a < b,
    '<=': lambda a, b: a <= b,
    '>': lambda a, b: a > b,
    '>=': lambda a, b: a >= b,
    '=': lambda a, b: a == b,
    '<>': lambda a, b: a != b,
    'and': lambda a, b: a and b,
    'or': lambda a, b: a or b,
    'xor': lambda a, b: a != b,
    '=>': lambda a, b: not a or b,
}
UNARY = {'not': lambda a: not a, '-': lambda a: in_range(-a)}
MANY = {'#': lambda *values: sum(values) <= 1, 'nor': lambda *values: not any(values)}


def strict(operator, operands):
    """The operator on values: `bad` where an operand is `bad`, else nil where one is nil."""
    absent = [operand is ABSENT for operand in operands]
    if any(absent):
        assert all(absent), 'operands of one form on two clocks'
        return ABSENT
    for special in (BAD, NIL):
        if any(operand is special for operand in operands):
            return special
    return operator(*operands)


def static_value(static, value_of_name):
    """The value of a static expression, or E5."""
    if static[0] == 'number':
        return static[1]
    if static[0] == 'name':
        return value_of_name(static[1])
    if static[0] == 'minus':
        value = in_range(-static_value(static[1], value_of_name))
    else:
        operands = [static_value(operand, value_of_name) for operand in static[2:]]
        value = BINARY[static[1]](*operands)
    if value is BAD:
        raise Refusal(5, 'a static expression has no value')
    return value
