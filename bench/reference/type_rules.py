"""The rules of types: docs/LANGUAGE.md, section 9. What breaks one is E9."""

from programs import BOOL, INT, SYMBOLS, Type
from values import Refusal

OPERAND_OF_BINARY = dict.fromkeys(['and', 'or', 'xor', '=>'], BOOL)
RESULT_OF_BINARY = dict.fromkeys(['+', '-', '*', '/', 'div', 'mod'], INT)


def array(length, type_):
    return Type(type_.kind, (length,) + type_.lengths)


def element(type_):
    return Type(type_.kind, type_.lengths[1:])


def wanted(holds, text):
    if not holds:
        raise Refusal(9, text)


class TypeRules:
    """Judges the types of one instance, and notes the types of each expression."""

    def __init__(self, instance):
        self.instance = instance

    def check(self):
        instance = self.instance
        for variable in instance.node.variables():
            if variable.clock:
                wanted(instance.types[variable.clock.variable] == BOOL, 'a declared clock')
        for left, right in instance.node.statements:
            types = self.types(right)
            if left is None:
                wanted(types == [BOOL], 'an assertion')
            else:
                wanted(types == [instance.types[name] for name in left], 'a left side')

    def types(self, expression):
        """The types of the results, one unless it is a call or an iterator."""
        if expression.form == 'parentheses':
            types = self.types(expression.operands[0])
        else:
            rule = getattr(self, 'of_' + expression.form)
            operands = [self.type(operand) for operand in expression.operands]
            if expression.form in ('call', 'iterator'):
                types = rule(expression, operands)
            else:
                types = [rule(expression, *operands)]
        self.instance.result_types[expression.number] = types
        return types

    def type(self, expression):
        types = self.types(expression)
        wanted(len(types) == 1, 'several results inside an expression')
        return types[0]

    def static(self, expression, position=0):
        return self.instance.static_values[expression.number][position]

    # One method for each form, from the expression and the types of its operands to its own type;
    # for a call or an iterator to the types of its results.

    def of_number(self, _):
        return INT

    def of_truth(self, _):
        return BOOL

    def of_name(self, expression):
        return self.instance.types.get(expression.detail, INT)

    def of_unary(self, expression, operand):
        wanted(operand == (BOOL if expression.detail == 'not' else INT), 'an operand')
        return operand

    def of_binary(self, expression, left, right):
        wanted(left == right and left in (BOOL, INT), 'operands')
        if expression.detail in ('=', '<>'):
            return BOOL
        wanted(left == OPERAND_OF_BINARY.get(expression.detail, INT), 'operands')
        return RESULT_OF_BINARY.get(expression.detail, BOOL)

    def of_many(self, _, *operands):
        wanted(operands and all(operand == BOOL for operand in operands), 'operands')
        return BOOL

    def of_if(self, _, condition, one, other):
        wanted(condition == BOOL and one == other, 'if')
        return one

    def of_arrow(self, _, left, right):
        wanted(left == right, 'two types')
        return left

    of_fby = of_arrow

    def of_pre(self, _, operand):
        return operand

    of_current = of_pre

    def of_when(self, expression, operand):
        wanted(self.instance.types[expression.detail.variable] == BOOL, 'when')
        return operand

    def of_array(self, _, *operands):
        wanted(len(set(operands)) == 1 and len(operands) <= 4096, 'an array')
        return array(len(operands), operands[0])

    def of_power(self, expression, operand):
        return array(self.static(expression), operand)

    def of_join(self, _, left, right):
        wanted(left.lengths and right.lengths and element(left) == element(right), '|')
        wanted(left.lengths[0] + right.lengths[0] <= 4096, 'an array of more than 4,096')
        return array(left.lengths[0] + right.lengths[0], element(left))

    def of_index(self, expression, operand):
        wanted(operand.lengths and self.static(expression) < operand.lengths[0], 'an index')
        return element(operand)

    def of_slice(self, expression, operand):
        first, last = self.instance.static_values[expression.number]
        wanted(operand.lengths and last < operand.lengths[0], 'a slice')
        return array(last - first + 1, element(operand))

    def of_call(self, expression, operands):
        inputs, outputs = self.interface(expression)
        wanted(operands == inputs, 'the arguments of a call')
        return outputs

    def of_iterator(self, expression, operands):
        inputs, outputs = self.interface(expression)
        size = self.static(expression, -1)
        kind = expression.detail.kind
        wanted(len(inputs) >= 1, 'an iterated node without inputs')
        if kind == 'map':
            wanted(operands == [array(size, type_) for type_ in inputs], 'the arguments of map')
            return [array(size, type_) for type_ in outputs]
        wanted(outputs[0] == inputs[0], 'the accumulator')
        arrays = [array(size, type_) for type_ in inputs[1:]]
        wanted(operands == inputs[:1] + arrays, 'the arguments of red or fill')
        if kind == 'red':
            wanted(len(outputs) == 1, 'red of a node with several outputs')
        else:
            wanted(len(inputs) == 1 and len(outputs) >= 2, 'what is under fill')
        return outputs[:1] + [array(size, type_) for type_ in outputs[1:]]

    def interface(self, expression):
        """The types of the inputs and outputs of what is called or iterated."""
        if expression.is_symbol():
            type_ = Type(SYMBOLS[expression.detail.name], ())
            return [type_, type_], [type_]
        callee = self.instance.children[expression.number][0]
        return ([callee.types[variable.name] for variable in callee.node.inputs],
                [callee.types[variable.name] for variable in callee.node.outputs])
