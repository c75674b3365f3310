"""Makes a program smaller that shows a difference, as long as it shows one of the same kind."""

import time

from comparison import Difference
from programs import Expression, name, number, places, truth


def reduce(check, program, difference, seconds):
    """The smallest program found in so many seconds, and its difference. The check raises the
    difference that a program shows."""
    end = time.monotonic() + seconds
    smaller = True
    while smaller:
        smaller = False
        for candidate in candidates(program):
            if time.monotonic() > end:
                return program, difference
            found = size(candidate) < size(program) and shown_by(check, candidate)
            if found and found.key() == difference.key():
                program, difference, smaller = candidate, found, True
                break
    return program, difference


def shown_by(check, program):
    """The difference that a program shows, or None."""
    try:
        check(program)
    except Difference as difference:
        return difference
    except (IndexError, KeyError):
        return None  # A part was taken out that no program of the grammar is without.
    return None


def size(program):
    """Of a literal 2, of another expression 3, and so on: what the reducer makes smaller."""
    expressions = [place.get().form for place in places(program)]
    nodes = sum(5 + len(node.variables()) + len(node.statements) for node in program.nodes)
    return (3 * len(expressions) - sum(form in ('number', 'truth') for form in expressions)
            + nodes + len(program.constants) + (3 if program.observer else 0))


def candidates(program):
    yield from without_node(program)
    yield from without_constant(program)
    yield from without_statement(program)
    yield from without_variable(program)
    yield from without_observed(program)
    yield from with_smaller_expression(program)


def without_node(program):
    if program.observer:
        copy = program.copy()
        copy.observer = None
        yield copy
    for position in range(len(program.nodes)):
        copy = program.copy()
        copy.nodes.pop(position)
        yield copy


def without_constant(program):
    for position in range(len(program.constants)):
        copy = program.copy()
        copy.constants.pop(position)
        yield copy


def without_statement(program):
    """Without a statement, and without the variables on its left."""
    for index, node in enumerate(program.nodes):
        for position in range(len(node.statements)):
            copy = program.copy()
            changed = copy.nodes[index]
            left = changed.statements.pop(position).left or ()
            changed.outputs = [each for each in changed.outputs if each.name not in left]
            changed.locals = [each for each in changed.locals if each.name not in left]
            if changed.outputs:
                yield copy


def without_variable(program):
    for index, node in enumerate(program.nodes):
        for group in ('inputs', 'outputs', 'locals'):
            for position in range(len(getattr(node, group))):
                copy = program.copy()
                getattr(copy.nodes[index], group).pop(position)
                if copy.nodes[index].outputs:
                    yield copy


def without_observed(program):
    """Without an input or output of the node under test, and without the input of the observer
    that is connected to it."""
    nodes = {node.name: node for node in program.nodes}
    if program.observer in nodes and program.main in nodes:
        main = nodes[program.main]
        for position in range(min(len(main.inputs + main.outputs),
                                  len(nodes[program.observer].inputs))):
            copy = program.copy()
            changed = {node.name: node for node in copy.nodes}
            main, observer = changed[program.main], changed[program.observer]
            observer.inputs.pop(position)
            if position < len(main.inputs):
                main.inputs.pop(position)
            else:
                main.outputs.pop(position - len(main.inputs))
            if main.outputs:
                yield copy


def with_smaller_expression(program):
    """With an operand, a literal or a variable in place of an expression, or without its last
    operand."""
    for position, place in enumerate(places(program)):
        expression = place.get()
        if expression.form in ('number', 'truth'):
            continue
        smaller = [operand.copy() for operand in expression.operands]
        smaller += [number(0), number(1), truth(False), truth(True)]
        if expression.form != 'name':
            smaller += [name(variable) for variable in place.node.names()]
        if expression.form in ('array', 'many') and len(expression.operands) > 1:
            smaller.append(Expression(expression.form, expression.operands[:-1],
                                      expression.detail).copy())
        for other in smaller:
            copy = program.copy()
            same_place(copy, position).put(other)
            yield copy


def same_place(copy, position):
    """The place in a copy of a program that has this position among all."""
    for index, place in enumerate(places(copy)):
        if index == position:
            return place
    raise IndexError(position)
