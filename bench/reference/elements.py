"""Scalar elements, and what gives their values at an instant.

An element is `(instance, variable, position)`, or `(instance, expression, position)` where it is
one of an expression.
"""

from programs import width


def width_of(instance, expression):
    return sum(width(type_) for type_ in instance.result_types[expression.number])


def unit_of(instance, expression):
    """The number of scalars in one element of the array that an expression is."""
    type_ = instance.result_types[expression.number][0]
    return width(type_) // type_.lengths[0]


def elements_of(instance):
    """The elements of the variables of an instance: inputs, outputs, locals."""
    return [(instance, variable.name, position)
            for variable in instance.node.variables()
            for position in range(width(instance.types[variable.name]))]


def definitions(instance):
    """For each output and local, by name and position, the expression and position that define
    it."""
    found = {}
    for left, right in instance.node.statements:
        position = 0
        for name in left or ():
            for own in range(width(instance.types[name])):
                found[name, own] = (right, position)
                position += 1
    return found


def result_element(instance, expression, position):
    """The element of an output that a call, or an iterator of a node, gives at a position."""
    children = instance.children[expression.number]
    outputs = [(output.name, width(children[0].types[output.name]))
               for output in children[0].node.outputs]
    if expression.form == 'iterator' and expression.detail.kind != 'map':
        accumulator, size = outputs[0]
        if position < size:
            return children[-1], accumulator, position
        outputs, position = outputs[1:], position - size
    for name, size in outputs:
        if position < size * len(children):
            return children[position // size], name, position % size
        position -= size * len(children)
    raise IndexError(position)


def input_source(instance, name, position, root):
    """What gives an element of an input: an element of an expression or variable elsewhere, or
    None where it is a cell of the trace."""
    inputs = [variable.name for variable in instance.node.inputs]
    place = inputs.index(name)
    if instance is root:
        return None
    if instance.parent is None:
        seen = root.node.inputs + root.node.outputs
        return root, seen[place].name, position
    site, parent = instance.site, instance.parent
    if site.form == 'iterator':
        if site.detail.kind != 'map' and place == 0:
            return accumulator_source(instance, position)
        position += instance.index * width(instance.types[name])
    return parent, site.operands[place], position


def accumulator_source(instance, position):
    """The first instance of red or fill has the first argument, each other one the accumulator of
    the instance before it."""
    site, parent = instance.site, instance.parent
    if instance.index == 0:
        return parent, site.operands[0], position
    before = parent.children[site.number][instance.index - 1]
    return before, before.node.outputs[0].name, position


def operand_element(instance, expression, position):
    """The operand, and the position in it, that an array form gives at a position."""
    operands = expression.operands
    if expression.form == 'array':
        unit = unit_of(instance, expression)
        return operands[position // unit], position % unit
    if expression.form == 'power':
        return operands[0], position % unit_of(instance, expression)
    if expression.form == 'join':
        first = width_of(instance, operands[0])
        return (operands[0], position) if position < first else (operands[1], position - first)
    start = instance.static_values[expression.number][0] * unit_of(instance, operands[0])
    return operands[0], start + position
