"""Causality: docs/LANGUAGE.md, section 14. A cycle of needs is E13.

In `A = [x, A[0]]` element 1 of A needs element 0, and element 0 needs x. That is no cycle.
"""

from elements import (definitions, elements_of, input_source, operand_element, result_element,
                      width_of)
from programs import Expression
from values import Refusal


class Needs:
    """What each scalar element needs at the same instant. The same element of an expression is
    looked at once."""

    def __init__(self, elaboration, clocks):
        self.root = elaboration.root
        self.clocks = clocks
        self.definitions = {instance: definitions(instance)
                            for instance in elaboration.instances}
        self.known = {}

    def waits(self, instance, clock):
        """The variables of a clock, down to the base of the whole program."""
        found = {(instance, step.variable, 0) for step in clock}
        if instance.parent is not None:
            found |= self.waits(instance.parent, self.clocks.bases[instance.site.number])
        return found

    def of_variable(self, element):
        instance, name, position = element
        clock = self.clocks.variables[instance.node.name][name]
        if (name, position) in self.definitions[instance]:
            source = (instance,) + self.definitions[instance][name, position]
        else:
            source = input_source(instance, name, position, self.root)
        return self.of_source(source) | self.waits(instance, clock)

    def of_source(self, source):
        if source is None:
            return frozenset()
        if isinstance(source[1], Expression):
            return self.of_expression(*source)
        return frozenset([source])

    def of_expression(self, instance, expression, position):
        key = (instance, expression, position)
        if key not in self.known:
            self.known[key] = frozenset(self.judged(instance, expression, position))
        return self.known[key]

    def judged(self, instance, expression, position):
        form, operands = expression.form, expression.operands
        if form in ('number', 'truth', 'pre'):
            return set()
        if form == 'name':
            is_variable = expression.detail in instance.types
            return {(instance, expression.detail, position)} if is_variable else set()
        if expression.applies_node():
            return {result_element(instance, expression, position)}
        if form in ('array', 'power', 'join', 'index', 'slice'):
            return self.of_expression(instance, *operand_element(instance, expression, position))
        if form in ('parentheses', 'fby'):
            return self.of_expression(instance, operands[0], position)
        if form in ('when', 'current'):
            needed = self.of_expression(instance, operands[0], position)
            return needed | self.waits(instance, self.clock_of_operator(instance, expression))
        return self.of_operands(instance, expression, position)

    def clock_of_operator(self, instance, expression):
        """The clock with the variables that a `when` or `current` needs."""
        if expression.form == 'current':
            return self.clocks.expressions[expression.operands[0].number]
        step = expression.detail
        return self.clocks.variables[instance.node.name][step.variable] + (step,)

    def of_operands(self, instance, expression, position):
        """An operator on scalars and `red` of a symbol need all their operands. The others need
        the same element of each, and `if` its condition."""
        form, operands = expression.form, expression.operands
        is_map = form == 'iterator' and expression.detail.kind == 'map'
        if form not in ('if', 'arrow') and not is_map:
            pairs = [(operand, each) for operand in operands
                     for each in range(width_of(instance, operand))]
        elif form == 'if':
            pairs = [(operands[0], 0), (operands[1], position), (operands[2], position)]
        else:
            pairs = [(operand, position) for operand in operands]
        return set().union(*[self.of_expression(instance, *pair) for pair in pairs])


def check_causality(elaboration, clocks):
    """E13 where an element needs itself."""
    needs = Needs(elaboration, clocks)
    begun, finished = set(), set()
    for instance in elaboration.instances:
        for element in elements_of(instance):
            if element not in finished:
                visit(element, needs, begun, finished)


def visit(start, needs, begun, finished):
    """Visits all that an element needs, without a deep recursion."""
    begun.add(start)
    stack = [(start, iter(needs.of_variable(start)))]
    while stack:
        element, rest = stack[-1]
        needed = next(rest, None)
        if needed is None:
            finished.add(element)
            stack.pop()
        elif needed not in begun:
            begun.add(needed)
            stack.append((needed, iter(needs.of_variable(needed))))
        elif needed not in finished:
            raise Refusal(13, 'an element of %s needs itself' % needed[1])
