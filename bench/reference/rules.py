"""All rules of a program, in the order of docs/LANGUAGE.md, section 17."""

from causality import check_causality
from clock_rules import ClockRules
from elements import width_of
from instances import Elaboration
from programs import MEMORIES, width
from type_rules import TypeRules
from values import Refusal


class Accepted:
    """A program that no rule refuses: its instances, its clocks and its size."""

    def __init__(self, program):
        program.number_expressions()
        elaboration = Elaboration(program)
        self.root, self.property = elaboration.root, elaboration.property
        self.instances = elaboration.instances
        for instance in self.instances:
            TypeRules(instance).check()
        nodes = [elaboration.nodes[name] for name in elaboration.reached]
        self.clocks = ClockRules(nodes)
        check_definitions(nodes, elaboration)
        self.size = sum(size_of(instance) for instance in self.instances)
        if self.size > 65536:
            raise Refusal(12, 'size %d' % self.size)
        check_causality(elaboration, self.clocks)


def check_definitions(nodes, elaboration):
    """E11: docs/LANGUAGE.md, section 11."""
    for node in nodes:
        left = [name for statement in node.statements for name in statement.left or ()]
        if sorted(left) != sorted(variable.name for variable in node.outputs + node.locals):
            raise Refusal(11, 'what stands on the left sides of ' + node.name)
        if node.kind == 'function':
            if any(expression.form in MEMORIES for expression in node.expressions()):
                raise Refusal(11, 'a function with a memory')
            if any(elaboration.nodes[callee].kind != 'function'
                   for callee in elaboration.called[node.name]):
                raise Refusal(11, 'a function that calls a node')


def size_of(instance):
    """docs/LANGUAGE.md, section 15."""
    variables = sum(width(type_) for type_ in instance.types.values())
    return variables + sum(width_of(instance, expression)
                           for expression in instance.node.expressions()
                           if expression.form != 'parentheses')


def judge(program):
    """The accepted program and None, or None and the refusal."""
    try:
        return Accepted(program), None
    except Refusal as refusal:
        return None, refusal
