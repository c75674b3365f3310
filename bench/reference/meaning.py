"""The values and the verdict of a trace: docs/LANGUAGE.md, sections 12, 13 and 16.

The value of an element at an instant is looked up where it is needed, from its definition. Each is
computed once for each instant.
"""

from elements import (definitions, elements_of, input_source, operand_element, result_element,
                      width_of)
from programs import Expression, width
from values import ABSENT, BAD, BINARY, MANY, NIL, UNARY, strict


class Meaning:
    """An accepted program that runs on traces."""

    def __init__(self, accepted):
        self.root, self.property = accepted.root, accepted.property
        self.clocks = accepted.clocks
        self.definitions, self.order = {}, []
        self.memories, self.ticking, self.assertions, self.clock_variables = [], [], [], set()
        for instance in accepted.instances:
            self.definitions[instance] = definitions(instance)
            self.order += elements_of(instance)
            self.places_of(instance)

    def places_of(self, instance):
        """Notes the memories, assertions and clock variables of an instance."""
        for left, right in instance.node.statements:
            if left is None:
                self.assertions.append((instance, right))
        for variable in instance.node.variables():
            if variable.clock:
                self.clock_variables.add((instance, variable.clock.variable))
        for expression in instance.node.expressions():
            if expression.form == 'when':
                self.clock_variables.add((instance, expression.detail.variable))
            if expression.form in ('pre', 'current', 'fby'):
                self.memories.append((instance, expression))
            if expression.form in ('arrow', 'fby'):
                self.ticking.append((instance, expression))

    def columns(self):
        """The scalar inputs of the node under test, each as its name and its kind."""
        found = []
        for variable in self.root.node.inputs:
            type_ = self.root.types[variable.name]
            names = [variable.name]
            for length in type_.lengths:
                names = ['%s[%d]' % (name, index) for name in names for index in range(length)]
            found += [(name, type_.kind) for name in names]
        return found

    def run(self, records):
        """The verdict of a trace, the instant that decides it or None, and the values of all
        elements at each instant up to that one."""
        self.stored, self.ticked, shown = {}, set(), []
        inputs = [(variable.name, position) for variable in self.root.node.inputs
                  for position in range(width(self.root.types[variable.name]))]
        for instant, record in enumerate(records):
            self.cells = dict(zip(inputs, record))
            self.variable_values, self.expression_values = {}, {}
            shown.append([self.variable(*element) for element in self.order])
            verdict = self.event(shown[-1])
            if verdict:
                return verdict, instant, shown
            self.store()
        return 'passed', None, shown

    def event(self, values):
        """What happens at this instant and decides the verdict, or None."""
        assertions = [self.value(*assertion, 0) for assertion in self.assertions]
        truths = [self.variable(*clock, 0) for clock in self.clock_variables]
        held = self.variable(*self.property, 0)
        operands = [value for memory in self.memories for value in self.operand(*memory)]
        if any(value is BAD for value in values + operands + assertions):
            return 'fault'
        if any(value is NIL for value in assertions + truths + [held]):
            return 'undefined'
        if any(value is False for value in assertions):
            return 'assertion'
        return 'false' if held is False else None

    def operand(self, instance, memory):
        """The values of what a memory stores: the last operand of `pre`, `current` and `fby`."""
        operand = memory.operands[-1]
        return [self.value(instance, operand, position)
                for position in range(width_of(instance, operand))]

    def store(self):
        """Ends the instant: memories take the values of their operands."""
        taken = [(memory, self.operand(*memory)) for memory in self.memories]
        ticked = [arrow for arrow in self.ticking
                  if self.present(arrow[0], self.clocks.expressions[arrow[1].number])]
        self.stored.update((memory, values) for memory, values in taken
                           if values[0] is not ABSENT)
        self.ticked.update(ticked)

    def present(self, instance, clock):
        """Whether a clock of an instance ticks."""
        if clock:
            return self.variable(instance, clock[-1].variable, 0) is clock[-1].sign
        if instance.parent is None:
            return True
        return self.present(instance.parent, self.clocks.bases[instance.site.number])

    def variable(self, instance, name, position):
        key = (instance, name, position)
        if key not in self.variable_values:
            clock = self.clocks.variables[instance.node.name][name]
            value = ABSENT
            if self.present(instance, clock):
                value = self.source(instance, name, position)
                assert value is not ABSENT, 'a present variable has no value'
            self.variable_values[key] = value
        return self.variable_values[key]

    def source(self, instance, name, position):
        """The value that defines a variable."""
        if (name, position) in self.definitions[instance]:
            return self.value(instance, *self.definitions[instance][name, position])
        source = input_source(instance, name, position, self.root)
        if source is None:
            return self.cells[name, position]
        if isinstance(source[1], Expression):
            return self.value(*source)
        return self.variable(*source)

    def value(self, instance, expression, position):
        """The value of an element of an expression at this instant."""
        key = (instance, expression, position)
        if key not in self.expression_values:
            self.expression_values[key] = self.computed(instance, expression, position)
        return self.expression_values[key]

    def computed(self, instance, expression, position):
        form = expression.form
        if form == 'parentheses':
            return self.value(instance, expression.operands[0], position)
        if form == 'name' and expression.detail in instance.types:
            return self.variable(instance, expression.detail, position)
        if expression.applies_node():
            return self.variable(*result_element(instance, expression, position))
        if not self.present(instance, self.clocks.expressions[expression.number]):
            return ABSENT
        if form in ('array', 'power', 'join', 'index', 'slice'):
            return self.value(instance, *operand_element(instance, expression, position))
        return getattr(self, 'value_of_' + form)(instance, expression, position)

    # The other forms, where they are present.

    def value_of_number(self, _, expression, __):
        return expression.detail

    value_of_truth = value_of_number

    def value_of_name(self, instance, expression, _):
        """Of a constant or static parameter."""
        return instance.value_of_name(expression.detail)

    def value_of_unary(self, instance, expression, _):
        return strict(UNARY[expression.detail], self.scalars(instance, expression))

    def value_of_binary(self, instance, expression, _):
        return strict(BINARY[expression.detail], self.scalars(instance, expression))

    def value_of_many(self, instance, expression, _):
        return strict(MANY[expression.detail], self.scalars(instance, expression))

    def scalars(self, instance, expression):
        return [self.value(instance, operand, 0) for operand in expression.operands]

    def value_of_if(self, instance, expression, position):
        condition, one, other = expression.operands
        chosen = self.value(instance, condition, 0)
        if chosen is BAD or chosen is NIL:
            return chosen
        return self.value(instance, one if chosen else other, position)

    def value_of_when(self, instance, expression, position):
        return self.value(instance, expression.operands[0], position)

    def value_of_arrow(self, instance, expression, position):
        later = (instance, expression) in self.ticked
        return self.value(instance, expression.operands[later], position)

    def value_of_fby(self, instance, expression, position):
        if (instance, expression) in self.ticked:
            return self.stored[instance, expression][position]
        return self.value(instance, expression.operands[0], position)

    def value_of_pre(self, instance, expression, position):
        stored = self.stored.get((instance, expression))
        return stored[position] if stored else NIL

    def value_of_current(self, instance, expression, position):
        now = self.value(instance, expression.operands[0], position)
        return self.value_of_pre(instance, expression, position) if now is ABSENT else now

    def value_of_iterator(self, instance, expression, position):
        """`map` or `red` of a symbol."""
        operator, (first, second) = BINARY[expression.detail.name], expression.operands
        if expression.detail.kind == 'map':
            operands = [self.value(instance, operand, position) for operand in (first, second)]
            return strict(operator, operands)
        accumulator = self.value(instance, first, 0)
        for index in range(width_of(instance, second)):
            accumulator = strict(operator, [accumulator, self.value(instance, second, index)])
        return accumulator
