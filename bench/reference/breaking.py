"""Changes a random program in one place, so that most of the changed programs break a rule."""

from programs import GREATEST, SYMBOLS, Expression, Step, number, places, statics, truth, unary
from rules import judge
from text import LEVELS

STATICS = [('number', 0), ('number', 1), ('number', 2), ('number', 3), ('number', 5),
           ('number', 4096), ('minus', ('number', 1)), ('name', 'K0'),
           ('binary', 'div', ('number', 1), ('number', 0)),
           ('binary', '+', ('number', GREATEST), ('number', 1))]
OPERATORS = [operator for operator in LEVELS if operator not in ('|', '->', 'fby')]


def broken(program, random):
    """A copy of a program with one change, and the name of the change."""
    changed = program.copy()
    accepted, _ = judge(changed)
    reached = {instance.node.name for instance in accepted.instances} if accepted else None
    found = [place for place in places(changed)
             if reached is None or place.node.name in reached]
    change = Change(changed, random.choice(found), accepted, random)
    kind = random.choice(KINDS)
    getattr(change, kind)()
    return changed, kind


class Change:
    """One change in a program, most at one place of an expression."""

    def __init__(self, program, place, accepted, random):
        self.program, self.place, self.node = program, place, place.node
        self.accepted, self.random = accepted, random
        self.names = self.node.names()
        self.own = [each.get() for each in places(program) if each.node is self.node]

    def some(self, fits):
        """Some expression of the node that fits, or None."""
        found = [expression for expression in self.own if fits(expression)]
        return self.random.choice(found) if found else None

    def chance(self, part):
        return self.random.random() < part

    # Expressions.

    def same_type(self):
        """Another expression of the node with the same type: a clock or a need is broken."""
        if not self.accepted:
            return
        types = next(instance.result_types for instance in self.accepted.instances
                     if instance.node is self.node)
        wanted = types[self.place.get().number]
        other = self.some(lambda expression: types[expression.number] == wanted)
        self.place.put(other.copy())

    def other_expression(self):
        self.place.put(self.random.choice(self.own).copy())

    def other_variable(self):
        types = {variable.name: (variable.kind, variable.sizes)
                 for variable in self.node.variables()}
        expression = self.some(lambda each: each.form == 'name' and each.detail in types)
        if expression:
            wanted = types[expression.detail]
            expression.detail = self.random.choice([each for each in types
                                                    if types[each] == wanted])

    def other_name(self):
        expression = self.some(lambda each: each.form == 'name')
        if expression:
            others = ['K0', 'nope'] + self.node.parameters if self.chance(0.3) else []
            expression.detail = self.random.choice(self.names + others)

    def other_step(self):
        expression = self.some(lambda each: each.form == 'when')
        if expression:
            variable, sign = expression.detail
            if self.chance(0.5):
                expression.detail = Step(variable, not sign)
            else:
                expression.detail = Step(self.random.choice(self.names), sign)

    def wrapped(self):
        inside = self.place.get()
        truths = [variable.name for variable in self.node.variables()
                  if variable.kind == 'bool' and not variable.sizes] or self.names
        sampled = Expression('when', [inside], Step(self.random.choice(truths), self.chance(0.5)))
        self.place.put(self.random.choice([
            Expression('pre', [inside]), Expression('current', [inside]),
            Expression('current', [inside]), sampled, Expression('current', [sampled]),
            Expression('array', [inside]), unary('not', inside), unary('-', inside),
            Expression('index', [inside], ('number', 0))]))

    def unwrapped(self):
        self.replace_form(['pre', 'current', 'when', 'fby', 'arrow', 'index', 'parentheses'],
                          lambda expression: expression.operands[-1])

    def without_memory(self):
        """`pre a` as a, and `a fby b` as `a -> b`: often a cycle of needs."""
        self.replace_form(['pre', 'fby'], lambda expression: expression.operands[0]
                          if expression.form == 'pre'
                          else Expression('arrow', expression.operands))

    def replace_form(self, forms, change):
        found = [place for place in places(self.program)
                 if place.node is self.node and place.get().form in forms]
        if found:
            place = self.random.choice(found)
            place.put(change(place.get()))

    def other_operator(self):
        expression = self.some(lambda each: each.form in ('binary', 'many', 'iterator'))
        if expression is None:
            return
        if expression.form == 'binary':
            expression.detail = self.random.choice(OPERATORS)
        elif expression.form == 'many':
            expression.detail = 'nor' if expression.detail == '#' else '#'
        elif expression.is_symbol():
            expression.detail = expression.detail._replace(name=self.random.choice(list(SYMBOLS)))
        else:
            kind = self.random.choice(['map', 'red', 'fill'])
            expression.detail = expression.detail._replace(kind=kind)

    def other_argument(self):
        expression = self.some(lambda each: each.form in ('call', 'iterator') and each.operands)
        if expression is None:
            return
        operands, shape = expression.operands, self.random.random()
        position = self.random.randrange(len(operands))
        if shape < 0.35:
            operands.insert(0, operands.pop(position))
        elif shape < 0.7:
            others = [self.random.choice(self.own).copy(), number(1), truth(True),
                      Expression('parentheses', [operands[position]])]
            operands[position] = self.random.choice(others)
        elif shape < 0.85:
            operands.append(number(1))
        elif len(operands) > 1:
            operands.pop()

    def other_node(self):
        expression = self.some(lambda each: each.applies_node())
        if expression is None:
            return
        if self.chance(0.4):
            arguments = expression.detail.arguments + [('number', 1)]
            expression.detail = expression.detail._replace(arguments=arguments)
        else:
            other = self.random.choice(self.program.nodes)
            # A node with this name and static parameters can not be called.
            if other.name not in ('map', 'red', 'fill'):
                expression.detail = expression.detail._replace(name=other.name)

    def other_static(self):
        expression = self.some(statics)
        if expression is None:
            return
        static = self.random.choice(STATICS + [('name', self.random.choice(self.names))])
        form, detail = expression.form, expression.detail
        if form in ('power', 'index'):
            expression.detail = static
        elif form == 'slice':
            expression.detail = (static, detail[1]) if self.chance(0.5) else (detail[0], static)
        elif form == 'call':
            expression.detail = detail._replace(arguments=[static] + detail.arguments[1:])
        else:
            expression.detail = detail._replace(size=static)

    # Statements and declarations.

    def without_statement(self):
        self.node.statements.pop(self.random.randrange(len(self.node.statements)))

    def statement_twice(self):
        self.node.statements.append(self.random.choice(self.node.statements))

    def other_left(self):
        statement = self.random.choice(self.node.statements)
        if statement.left is None:
            return
        shape, position = self.random.random(), self.random.randrange(len(statement.left))
        if shape < 0.6:
            statement.left[position] = self.random.choice(self.names + ['nope'])
        elif shape < 0.8:
            statement.left.append(self.random.choice(self.names))
        elif len(statement.left) > 1:
            statement.left.pop(position)

    def declaration(self):
        """The list that declares some variable, and its position there."""
        lists = [each for each in (self.node.inputs, self.node.outputs, self.node.locals) if each]
        declared = self.random.choice(lists)
        return declared, self.random.randrange(len(declared))

    def other_clock(self):
        declared, position = self.declaration()
        variable = declared[position]
        clock = Step(self.random.choice(self.names), self.chance(0.5))
        if variable.clock and self.chance(0.4):
            clock = None
        declared[position] = variable._replace(clock=clock)

    def other_type(self):
        declared, position = self.declaration()
        variable, shape = declared[position], self.random.random()
        if shape < 0.4:
            kind = 'bool' if variable.kind == 'int' else 'int'
            declared[position] = variable._replace(kind=kind)
            return
        sizes = variable.sizes[1:]
        if shape < 0.7:
            sizes = (('number', self.random.choice([0, 1, 2, 3, 4096, 4097])),) + sizes
        elif shape < 0.85:
            sizes = variable.sizes + (('number', 2),)
        declared[position] = variable._replace(sizes=sizes)

    def other_variables(self):
        declared, position = self.declaration()
        shape = self.random.random()
        if shape < 0.3 and len(declared) > 1:
            declared.pop(position)
        elif shape < 0.6:
            new = self.random.choice(self.names + ['fresh'])
            declared.append(declared[position]._replace(name=new))
        else:
            declared.insert(0, declared.pop(position))

    def other_kind(self):
        self.node.kind = 'function' if self.node.kind == 'node' else 'node'

    def other_global(self):
        program, shape = self.program, self.random.random()
        if shape < 0.3:
            self.node.parameters.append('g')
        elif shape < 0.5 and program.constants:
            other = ('name', self.random.choice(['K0', 'K1', 'K2', 'main']))
            program.constants[0] = (program.constants[0][0], other)
        elif shape < 0.7:
            own = 'main' if self.chance(0.3) else 'K0'
            program.constants.append((own, ('number', 3)))
        elif shape < 0.8:
            nodes = [node.name for node in program.nodes]
            program.main = 'nope' if self.chance(0.2) else self.random.choice(nodes)
        else:
            program.observer = self.random.choice(program.nodes).name


KINDS = (['same_type'] * 4 + ['other_expression'] * 3 + ['other_variable', 'other_name'] * 2
         + ['other_clock', 'other_static', 'wrapped', 'unwrapped', 'without_memory'] * 2
         + ['other_step', 'other_operator', 'other_argument', 'other_node', 'without_statement',
            'statement_twice', 'other_left', 'other_type', 'other_variables', 'other_kind',
            'other_global'])
