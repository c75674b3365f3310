"""Names, static values and instances: docs/LANGUAGE.md, sections 5 to 8."""

from programs import BOOL, Type, static_names, statics, width
from values import Refusal, static_value

# The site of the observer, which no call and no iterator made.
OBSERVER = 'observer'


class Instance:
    """A node that runs: at a call, at one index of an iterator, at the root or as the observer."""

    def __init__(self, node, level, parent, site, index, value_of_name):
        self.node, self.level = node, level
        self.parent, self.site, self.index = parent, site, index
        self.value_of_name = value_of_name  # of a static parameter or a constant
        self.children = {}          # by number of the call or iterator, in order of the index
        self.static_values = {}     # by number of the expression
        self.types = {}             # by name of the variable
        self.result_types = {}      # by number of the expression, filled by the rules of types


class Elaboration:
    """The reached nodes of a program and its tree of instances, or the first of E4 to E8, E12."""

    def __init__(self, program):
        self.program = program
        self.nodes = {node.name: node for node in program.nodes}
        self.constants = dict(program.constants)
        self.reached, self.called = [], {}
        self.reached_constants, self.constant_values = set(), {}
        self.instances = []
        self.global_names()
        for start in program.start_names():
            self.reach(start)
        self.recursion()
        if any(self.nodes[start].parameters for start in program.start_names()):
            raise Refusal(8, 'static parameters')
        self.root = self.enter(self.nodes[program.main], 1, None, None, 0, {})
        self.observer = None
        if program.observer:
            self.observer = self.enter(self.nodes[program.observer], 1, None, OBSERVER, 0, {})
        self.root_rules()

    # Names: section 5.

    def global_names(self):
        names = [constant for constant, _ in self.program.constants]
        names += [node.name for node in self.program.nodes]
        if len(set(names)) != len(names):
            raise Refusal(4, 'two constants or nodes of one name')
        if any(start not in self.nodes for start in self.program.start_names()):
            raise Refusal(4, 'no node under test or observer')

    def reach(self, start):
        """Judges the names of a node, and of all nodes that it reaches."""
        waiting = [start]
        while waiting:
            name = waiting.pop()
            if name not in self.reached:
                self.reached.append(name)
                self.called[name] = set()
                self.names_of_node(self.nodes[name])
                waiting += self.called[name]

    def reach_constant(self, name):
        if name not in self.constants:
            raise Refusal(4, 'unknown name ' + name)
        if name not in self.reached_constants:
            self.reached_constants.add(name)
            for other in static_names(self.constants[name]):
                self.reach_constant(other)

    def names_of_node(self, node):
        names = node.names() + node.parameters
        if len(set(names)) != len(names):
            raise Refusal(4, 'two variables or static parameters of one name')
        variables = set(node.names())
        for variable in node.variables():
            for static in variable.sizes:
                self.names_of_static(node, static)
            if variable.clock and variable.clock.variable not in variables:
                raise Refusal(4, 'no variable ' + variable.clock.variable)
        for statement in node.statements:
            if any(left not in variables for left in statement.left or ()):
                raise Refusal(4, 'no variable on the left')
        for expression in node.expressions():
            self.names_of_expression(node, expression)

    def names_of_static(self, node, static):
        for name in static_names(static):
            if name in node.names():
                raise Refusal(4, 'variable %s in a static expression' % name)
            if name not in node.parameters:
                self.reach_constant(name)

    def names_of_expression(self, node, expression):
        for _, static in statics(expression):
            self.names_of_static(node, static)
        detail, known = expression.detail, node.names()
        if expression.form == 'name' and detail not in known + node.parameters:
            self.reach_constant(detail)
        if expression.form == 'when' and detail.variable not in known:
            raise Refusal(4, 'no variable ' + detail.variable)
        if expression.applies_node():
            callee = self.nodes.get(detail.name)
            if callee is None or len(callee.parameters) != len(detail.arguments):
                raise Refusal(4, 'no such node: ' + detail.name)
            self.called[node.name].add(detail.name)

    def recursion(self):
        """E7 where a node reaches itself."""
        finished = set()

        def visit(name, above):
            if name in above:
                raise Refusal(7, name)
            if name not in finished:
                for callee in self.called[name]:
                    visit(callee, above | {name})
                finished.add(name)
        for start in self.program.start_names():
            visit(start, frozenset())

    # Static values and instances: sections 6 and 7.

    def constant_value(self, name, waiting=()):
        if name in waiting:
            raise Refusal(5, 'a constant needs itself')
        if name not in self.constant_values:
            self.constant_values[name] = static_value(
                self.constants[name],
                lambda other: self.constant_value(other, waiting + (name,)))
        return self.constant_values[name]

    def enter(self, node, level, parent, site, index, parameters):
        """The instance of a node with these static parameters, and all below it."""
        if len(self.instances) >= 4096 or level > 64:
            raise Refusal(12, 'too many instances or levels')
        def value_of_name(name):
            return parameters[name] if name in parameters else self.constant_value(name)
        instance = Instance(node, level, parent, site, index, value_of_name)
        self.instances.append(instance)
        self.static_values_of(instance)
        self.ranges_of(instance)
        for expression in node.expressions():
            if expression.applies_node():
                self.enter_children(instance, expression)
        return instance

    def enter_children(self, instance, site):
        callee = self.nodes[site.detail.name]
        values = instance.static_values[site.number]
        count = 1 if site.form == 'call' else values[-1]
        parameters = dict(zip(callee.parameters, values))
        instance.children[site.number] = [
            self.enter(callee, instance.level + 1, instance, site, index, parameters)
            for index in range(count)]

    def static_values_of(self, instance):
        """E5 where a static expression or a named constant of the instance has no value."""
        def value(static):
            return static_value(static, instance.value_of_name)
        for variable in instance.node.variables():
            lengths = tuple(value(size) for size in reversed(variable.sizes))
            instance.types[variable.name] = Type(variable.kind, lengths)
        for expression in instance.node.expressions():
            instance.static_values[expression.number] = [
                value(static) for _, static in statics(expression)]
            if expression.form == 'name' and expression.detail not in instance.types:
                instance.value_of_name(expression.detail)

    def ranges_of(self, instance):
        """E6 where a size, an index or a slice of the instance is out of range."""
        for type_ in instance.types.values():
            if any(not 1 <= size <= 4096 for size in type_.lengths) or width(type_) > 65536:
                raise Refusal(6, 'a declared type')
        for expression in instance.node.expressions():
            values = instance.static_values[expression.number]
            for (role, _), value in zip(statics(expression), values):
                if role == 'size' and not 1 <= value <= 4096:
                    raise Refusal(6, 'a size')
                if role == 'index' and not 0 <= value <= 4095:
                    raise Refusal(6, 'an index')
            if expression.form == 'slice' and values[0] > values[1]:
                raise Refusal(6, 'a slice')

    # The node under test and the observer: section 8.

    def root_rules(self):
        """E8, but for the rule of static parameters, which comes before the instances."""
        root, observer = self.root, self.observer
        for instance in [root, observer] if observer else [root]:
            if any(variable.clock for variable in instance.node.inputs + instance.node.outputs):
                raise Refusal(8, 'an input or output with a when')
        if sum(width(root.types[variable.name]) for variable in root.node.inputs) > 1023:
            raise Refusal(8, 'more than 1,023 scalar inputs')
        if observer:
            taken = [observer.types[variable.name] for variable in observer.node.inputs]
            seen = root.node.inputs + root.node.outputs
            if taken != [root.types[variable.name] for variable in seen]:
                raise Refusal(8, 'the inputs of the observer')
        judging = observer or root
        outputs = judging.node.outputs
        if [judging.types[variable.name] for variable in outputs] != [BOOL]:
            raise Refusal(8, 'the property is no single bool')
        self.property = judging, outputs[0].name
