"""The rules of clocks: docs/LANGUAGE.md, section 10. What breaks one is E10.

For `node hold(on: bool; v: int when on) returns (w: int when on)` and the call `hold(c, x when c)`
the variable c of the caller stands for `on`, and the clock of v is `when c` on the clock on which
the node runs.
"""

from values import Refusal


def wanted(holds, text):
    if not holds:
        raise Refusal(10, text)


class ClockRules:
    """Judges the clocks of all reached nodes, and notes

    - `variables`: for each node, by its name, the clock of each variable;
    - `expressions`: the clock of each expression, by its number;
    - `bases`: the clock on which the instances of a call or iterator run, by its number.
    """

    def __init__(self, nodes):
        self.nodes = {node.name: node for node in nodes}
        self.variables = {node.name: declared_clocks(node) for node in nodes}
        self.expressions, self.bases = {}, {}
        for node in nodes:
            rules = NodeClocks(self, node)
            for statement in node.statements:
                rules.statement(statement)


def declared_clocks(node):
    """The clock of each variable of a node."""
    inputs = {variable.name for variable in node.inputs}
    outputs = {variable.name for variable in node.outputs}
    for variable in node.inputs:
        wanted(not variable.clock or variable.clock.variable in inputs, 'an input')
    for variable in node.outputs:
        wanted(not variable.clock or variable.clock.variable in inputs | outputs, 'an output')
    step_of = {variable.name: variable.clock for variable in node.variables()}
    return {name: clock_of(name, step_of) for name in step_of}


def clock_of(name, step_of):
    clock, seen = (), {name}
    while step_of[name]:
        clock = (step_of[name],) + clock
        name = step_of[name].variable
        wanted(name not in seen, 'clocks in a circle')
        seen.add(name)
    return clock


class NodeClocks:
    """The rules in one node."""

    def __init__(self, rules, node):
        self.rules = rules
        self.clocks = rules.variables[node.name]

    def statement(self, statement):
        left, right = statement
        if left is None:
            self.ask(right, self.determined(right) or ())
        elif len(left) == 1:
            self.ask(right, self.clocks[left[0]])
        elif right.bare().form == 'iterator':
            clock = self.clocks[left[0]]
            wanted(all(self.clocks[name] == clock for name in left), 'the results of an iterator')
            self.ask(right, clock)
        else:
            self.several_results(right.bare(), left)

    def several_results(self, call, left):
        """A call with several results, which go to the variables on the left."""
        outputs = self.rules.nodes[call.detail.name].outputs
        base, seen = self.callee(call, left)
        if base is None:
            base = next(self.clocks[name] for output, name in zip(outputs, left)
                        if not output.clock)
        self.rules.bases[call.number] = self.rules.expressions[call.number] = base
        for output, name in zip(outputs, left):
            wanted(base + seen(output) == self.clocks[name], 'a result of a call')
        self.arguments(call, base, seen)

    def callee(self, call, left=()):
        """The clock on which a call runs, None where no argument determines it, and a function
        from a parameter to its clock, in the caller's variables and beyond that base."""
        callee = self.rules.nodes[call.detail.name]
        variables = self.clock_variables(call, callee, left)
        clocks = self.rules.variables[callee.name]

        def seen(parameter):
            return tuple(step._replace(variable=variables[step.variable])
                         for step in clocks[parameter.name])
        for parameter, argument in zip(callee.inputs, call.operands):
            clock = self.determined(argument)
            if clock is not None:
                depth = len(clocks[parameter.name])
                wanted(len(clock) >= depth, 'an argument on too fast a clock')
                return clock[:len(clock) - depth], seen
        return None, seen

    def clock_variables(self, call, callee, left):
        """The caller's variable for each parameter that serves as a clock."""
        serving = callee.clock_parameters()
        variables = {}
        for parameter, argument in zip(callee.inputs, call.operands):
            if parameter.name in serving:
                argument = argument.bare()
                wanted(argument.form == 'name' and argument.detail in self.clocks,
                       'an argument for a clock is no variable')
                variables[parameter.name] = argument.detail
        for parameter, name in zip(callee.outputs, left):
            if parameter.name in serving:
                variables[parameter.name] = name
        return variables

    def arguments(self, call, base, seen):
        inputs = self.rules.nodes[call.detail.name].inputs
        for parameter, argument in zip(inputs, call.operands):
            self.ask(argument, base + seen(parameter))

    def determined(self, expression):
        """The clock that something inside an expression determines, or None."""
        form, detail = expression.form, expression.detail
        if form == 'name':
            return self.clocks.get(detail)
        if form == 'when':
            return self.clocks[detail.variable] + (detail,)
        if form == 'current':
            return self.determined_operand(expression)[:-1]
        if form == 'call':
            base, seen = self.callee(expression)
            output = self.rules.nodes[detail.name].outputs[0]
            return None if base is None else base + seen(output)
        for operand in expression.operands:
            clock = self.determined(operand)
            if clock is not None:
                return clock
        return None

    def determined_operand(self, current):
        clock = self.determined(current.operands[0])
        wanted(clock, 'current of something on the base clock, or on no clock of its own')
        return clock

    def ask(self, expression, clock):
        """Judges an expression that is asked for a clock."""
        self.rules.expressions[expression.number] = clock
        form, detail = expression.form, expression.detail
        if form == 'name':
            wanted(self.clocks.get(detail, clock) == clock, 'variable ' + detail)
        elif form == 'when':
            above = self.clocks[detail.variable]
            wanted(clock == above + (detail,), 'when')
            self.ask(expression.operands[0], above)
        elif form == 'current':
            inside = self.determined_operand(expression)
            wanted(inside[:-1] == clock, 'current')
            self.ask(expression.operands[0], inside)
        elif form == 'call':
            self.ask_call(expression, clock)
        else:
            self.ask_operands(expression, clock)

    def ask_call(self, call, clock):
        base, seen = self.callee(call)
        if base is None:
            base = clock
        self.rules.bases[call.number] = base
        output = self.rules.nodes[call.detail.name].outputs[0]
        wanted(base + seen(output) == clock, 'the result of a call')
        self.arguments(call, base, seen)

    def ask_operands(self, expression, clock):
        if expression.form == 'iterator':
            self.rules.bases[expression.number] = clock
            if not expression.is_symbol():
                iterated = self.rules.nodes[expression.detail.name]
                wanted(not iterated.clock_parameters(), 'an iterated node with a when')
        for operand in expression.operands:
            self.ask(operand, clock)
