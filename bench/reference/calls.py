"""Random calls and iterators of the nodes that a random program has so far."""

from programs import BOOL, SYMBOLS, Call, Expression, Iterator, Step, Type, name

# The most instances that one node should have below it.
MOST_INSTANCES = 120


class Made:
    """A node that can be called. Inputs and outputs are given as name, type and clock; a length of
    a type may be the name of a static parameter."""

    def __init__(self, maker, inputs, outputs):
        self.name, self.kind, self.cost = maker.name, maker.kind, maker.cost
        self.parameters, self.roles = maker.parameters, maker.roles
        self.inputs = [(each,) + maker.types[each] for each in inputs]
        self.outputs = [(each,) + maker.types[each] for each in outputs]
        self.clock_parameters = {clock[-1].variable
                                 for _, _, clock in self.inputs + self.outputs if clock}


def array(length, type_):
    return Type(type_.kind, (length,) + type_.lengths)


def with_values(type_, values):
    """A type of a called node, with the lengths that its static parameters have."""
    return Type(type_.kind, tuple(values.get(length, length) for length in type_.lengths))


def with_variables(clock, variables):
    return tuple(Step(variables[step.variable], step.sign) for step in clock)


class Calls:
    """The part of `Expressions` that makes calls and iterators."""

    def callees(self, fits):
        """The nodes that may be called here, in random order."""
        found = [made for made in self.callable
                 if (self.kind == 'node' or made.kind == 'function') and fits(made)]
        self.random.shuffle(found)
        return found

    def afford(self, made, count=1):
        """Whether so many instances may be added. If so they are."""
        count = 3 if isinstance(count, str) else count
        if self.cost + count * made.cost > MOST_INSTANCES:
            return False
        self.cost += count * made.cost
        return True

    def static_arguments(self, made, type_=None, wanted=None):
        """Values of the static parameters with which a type of the node is the wanted one, None
        if there are none."""
        values = {}
        if type_:
            if type_.kind != wanted.kind or len(type_.lengths) != len(wanted.lengths):
                return None
            for own, length in zip(type_.lengths, wanted.lengths):
                known = values.setdefault(own, length) if isinstance(own, str) else own
                if known != length:
                    return None
        for parameter in made.parameters:
            choices = [1, 2, -3, 7]
            if made.roles[parameter] == 'size':
                choices = [1, 2, 3] + self.size_parameters()
            values.setdefault(parameter, self.random.choice(choices))
        return values

    def written(self, made, values):
        return [self.static(values[parameter]) for parameter in made.parameters]

    def clock_arguments(self, made, base, now, known):
        """The caller's variable for each input that serves as a clock, None if there is none."""
        variables = dict(known)
        for parameter, _, clock in sorted(made.inputs, key=lambda each: len(each[2])):
            if parameter in made.clock_parameters and parameter not in variables:
                if any(step.variable not in variables for step in clock):
                    return None
                wanted = base + with_variables(clock, variables)
                candidates = self.variables_of(BOOL, now, wanted)
                if not candidates:
                    return None
                variables[parameter] = self.random.choice(candidates)
        return variables

    def arguments(self, made, values, variables, want):
        """The arguments of a call on the clock of `want`."""
        found = []
        for parameter, type_, clock in made.inputs:
            if parameter in variables:
                argument = name(variables[parameter])
                if self.chance(0.1):
                    argument = Expression('parentheses', [argument])
            else:
                argument = self.expression(want.inner(
                    type=with_values(type_, values),
                    clock=want.clock + with_variables(clock, variables)))
            found.append(argument)
        return found

    def some_call(self, want):
        for made in self.callees(lambda made: len(made.outputs) == 1):
            call = self.call_of(made, want)
            if call is not None:
                return call
        return None

    def call_of(self, made, want):
        """A call of a node with one output, None where it does not fit."""
        _, type_, clock = made.outputs[0]
        values = self.static_arguments(made, type_, want.type)
        base = want.clock[:len(want.clock) - len(clock)]
        steps = want.clock[len(base):]
        if values is None or [step.sign for step in clock] != [step.sign for step in steps]:
            return None
        known = {own.variable: step.variable for own, step in zip(clock, steps)}
        if with_variables(clock, known) != steps:
            return None
        variables = self.clock_arguments(made, base, want.now, known)
        if variables is None or not self.afford(made):
            return None
        call = Call(made.name, self.written(made, values))
        return Expression('call', self.arguments(made, values, variables,
                                                 want._replace(clock=base)), call)

    def some_iterator(self, want):
        if want.type.lengths and self.chance(0.75):
            return self.some_map(want)
        length = self.some_length()
        if not want.type.lengths and self.chance(0.45):
            return self.iterated_symbol('red', want, length, [want.type, array(length, want.type)])
        for made in self.callees(lambda made: len(made.outputs) == 1 and self.accumulates(made)):
            values = self.static_arguments(made, made.outputs[0][1], want.type)
            if values is not None and self.afford(made, length):
                inputs = [with_values(type_, values) for _, type_, _ in made.inputs]
                types = inputs[:1] + [array(length, type_) for type_ in inputs[1:]]
                return self.iterated('red', made, values, length, types, want)
        return None

    def accumulates(self, made):
        """Whether `red` or `fill` may apply a node."""
        return (not made.clock_parameters and made.inputs
                and made.inputs[0][1] == made.outputs[0][1])

    def some_map(self, want):
        length, type_ = want.type.lengths[0], Type(want.type.kind, want.type.lengths[1:])
        if not type_.lengths and self.chance(0.5):
            return self.iterated_symbol('map', want, length, [want.type, want.type])
        for made in self.callees(lambda made: len(made.outputs) == 1 and made.inputs
                                 and not made.clock_parameters):
            values = self.static_arguments(made, made.outputs[0][1], type_)
            if values is not None and self.afford(made, length):
                types = [array(length, with_values(own, values)) for _, own, _ in made.inputs]
                return self.iterated('map', made, values, length, types, want)
        return None

    def iterated_symbol(self, kind, want, length, types):
        symbol = self.random.choice([symbol for symbol in SYMBOLS
                                     if SYMBOLS[symbol] == want.type.kind])
        operands = [self.expression(want.inner(type=type_)) for type_ in types]
        detail = Iterator(kind, symbol, None, self.static(length))
        return Expression('iterator', operands, detail)

    def iterated(self, kind, made, values, length, types, want):
        operands = [self.expression(want.inner(type=type_)) for type_ in types]
        detail = Iterator(kind, made.name, self.written(made, values), self.static(length))
        return Expression('iterator', operands, detail)

    # Several results.

    def several_results(self, want):
        """A call or iterator with several results: a function that makes it later, and for each
        result its type and its clock, in which a number stands for the result at this position.
        None where no node fits."""
        for made in self.callees(lambda made: len(made.outputs) >= 2)[:1]:
            values = self.static_arguments(made)
            if not made.clock_parameters and made.inputs and self.chance(0.5):
                return self.several_iterated(made, values, want)
            return self.several_called(made, values, want)
        return None

    def several_iterated(self, made, values, want):
        length = self.random.choice([1, 2, 3] + self.size_parameters())
        fill = len(made.inputs) == 1 and self.accumulates(made) and self.chance(0.6)
        if not self.afford(made, length):
            return None
        inputs = [with_values(type_, values) for _, type_, _ in made.inputs]
        outputs = [with_values(type_, values) for _, type_, _ in made.outputs]
        arrays = [array(length, type_) for type_ in outputs]
        if fill:
            kind, types, results = 'fill', inputs, outputs[:1] + arrays[1:]
        else:
            kind, types, results = 'map', [array(length, type_) for type_ in inputs], arrays

        def make():
            return self.iterated(kind, made, values, length, types, want)
        return make, [(type_, want.clock) for type_ in results]

    def several_called(self, made, values, want):
        variables = self.clock_arguments(made, want.clock, False, {})
        if variables is None or not self.afford(made):
            return None
        positions = {output[0]: position for position, output in enumerate(made.outputs)}
        results = [(with_values(type_, values),
                    want.clock + with_variables(clock, {**variables, **positions}))
                   for _, type_, clock in made.outputs]

        def make():
            call = Call(made.name, self.written(made, values))
            made_call = Expression('call', self.arguments(made, values, variables, want), call)
            return Expression('parentheses', [made_call]) if self.chance(0.1) else made_call
        return make, results
