"""The text of a program: docs/LANGUAGE.md, sections 3 and 4.

It has few parentheses, just where the four rules of section 4 ask for them, so that the levels of
operators are tried. With a random source it also has spaces, comments and spare parentheses, and
takes any of two ways where the grammar has two.
"""

from collections import namedtuple

# `ends` is the least level of a prefix form with which the text ends.
Written = namedtuple('Written', 'text level ends is_prefix')

ATOM, NO_PREFIX = 14, 99
LEVELS = {'|': 1, '->': 3, 'fby': 3, '=>': 4, 'or': 5, 'xor': 5, 'and': 6, '=': 7, '<>': 7, '<': 7,
          '<=': 7, '>': 7, '>=': 7, '+': 9, '-': 9, '*': 10, '/': 10, 'div': 10, 'mod': 10}
GROUPS_RIGHT = {'->', 'fby', '=>'}
GROUPS_LEFT = set(LEVELS) - GROUPS_RIGHT - {'=', '<>', '<', '<=', '>', '>='}
PREFIXES = {'not': ('not ', 8), '-': ('- ', 12), 'pre': ('pre ', 12), 'current': ('current ', 12)}
INFIX_OF_FORM = {'arrow': '->', 'fby': 'fby', 'join': '|'}
SPACES = ['  ', '\n', '\t', ' /* c */ ', ' (* x *) ', ' -- y\n']


def atom(text):
    return Written(text, ATOM, NO_PREFIX, False)


def closed(written):
    return atom('(%s)' % written.text)


class Writer:
    """Writes a program, with a random source for what may be written in several ways."""

    def __init__(self, random=None):
        self.random = random

    def chance(self, part):
        return self.random is not None and self.random.random() < part

    def space(self):
        return self.random.choice(SPACES) if self.chance(0.03) else ' '

    def separator(self):
        return '; ' if self.chance(0.5) else ', '

    # The four rules of section 4.

    def before(self, written, level, groups_left):
        """What stands left of an infix or postfix form: rule 1."""
        high = written.level > level or (written.level == level and groups_left)
        return (written if high and written.ends >= level else closed(written)).text

    def infix(self, operator, left, right):
        """Rules 1 and 2."""
        level = LEVELS[operator]
        high = right.level > level or (right.level == level and operator in GROUPS_RIGHT)
        if not high and not right.is_prefix:
            right = closed(right)
        text = self.space().join([self.before(left, level, operator in GROUPS_LEFT), operator,
                                  right.text])
        return Written(text, level, right.ends, False)

    def prefix(self, text, level, operand):
        """Rule 3."""
        if operand.level < level and not operand.is_prefix:
            operand = closed(operand)
        return Written(text + operand.text, level, min(level, operand.ends), True)

    def postfix(self, operand, level, text):
        return Written(self.before(operand, level, True) + text, level, NO_PREFIX, False)

    # Static expressions.

    def static(self, static):
        return self.static_form(static).text

    def static_form(self, static):
        if static[0] in ('number', 'name'):
            return atom(str(static[1]))
        if static[0] == 'minus':
            return self.prefix('- ', 12, self.static_form(static[1]))
        return self.infix(static[1], self.static_form(static[2]), self.static_form(static[3]))

    def size(self, static):
        text = self.static(static)
        return text if static[0] in ('number', 'name') else '(%s)' % text

    def arguments(self, arguments):
        if not arguments:
            return ''
        return '<<%s>>' % self.separator().join(map(self.static, arguments))

    def clock(self, step):
        name = '(%s)' % step.variable if self.chance(0.2) else step.variable
        return name if step.sign else 'not ' + name

    # Expressions.

    def expression(self, expression):
        return self.form(expression).text

    def form(self, expression):
        written = self.plain_form(expression)
        return closed(written) if self.chance(0.03) else written

    def plain_form(self, expression):
        form, detail = expression.form, expression.detail
        operands = expression.operands
        if form == 'number':
            return atom(('0' if self.chance(0.02) else '') + str(detail))
        if form == 'truth':
            return atom('true' if detail else 'false')
        if form == 'name':
            return atom(detail)
        if form == 'parentheses':
            return closed(self.form(operands[0]))
        if form in ('unary', 'pre', 'current'):
            text, level = PREFIXES[detail or form]
            return self.prefix(text, level, self.form(operands[0]))
        if form == 'if':
            return self.conditional(*operands)
        if form == 'binary' or form in INFIX_OF_FORM:
            operator = detail or INFIX_OF_FORM[form]
            return self.infix(operator, self.form(operands[0]), self.form(operands[1]))
        return self.listed_or_postfix(expression)

    def conditional(self, condition, one, other):
        text = 'if %s%sthen %s%selse ' % (self.expression(condition), self.space(),
                                          self.expression(one), self.space())
        return self.prefix(text, 2, self.form(other))

    def listed_or_postfix(self, expression):
        form, detail = expression.form, expression.detail
        if form in ('many', 'array', 'call', 'iterator'):
            listed = ', '.join(map(self.expression, expression.operands))
            if form == 'array':
                return atom('[%s]' % listed)
            return atom('%s(%s)' % (self.head(expression), listed))
        operand = self.form(expression.operands[0])
        if form == 'when':
            return self.postfix(operand, 11, ' when ' + self.clock(detail))
        if form == 'power':
            return self.postfix(operand, 13, ' ^ ' + self.size(detail))
        ends = [detail] if form == 'index' else detail
        return self.postfix(operand, 13, '[%s]' % ' .. '.join(map(self.static, ends)))

    def head(self, expression):
        """What stands before the list of operands."""
        detail = expression.detail
        if expression.form == 'many':
            return detail
        applied = detail.name + self.arguments(detail.arguments)
        if expression.form == 'call':
            return applied
        return '%s<<%s%s%s>>' % (detail.kind, applied, self.separator(), self.static(detail.size))

    # Nodes.

    def declarations(self, variables):
        """Variables of one type and clock may share a declaration."""
        written, last = [], None
        for variable in variables:
            shared = variable[1:] == last and not self.chance(0.4)
            last = variable[1:]
            if shared:
                names, type_ = written.pop()
                written.append((names + ', ' + variable.name, type_))
            else:
                written.append((variable.name, self.type(variable)))
        return ['%s: %s' % pair for pair in written]

    def type(self, variable):
        text = variable.kind + ''.join(' ^ ' + self.static(size) for size in variable.sizes)
        return text + (' when ' + self.clock(variable.clock) if variable.clock else '')

    def statement(self, statement):
        right = self.expression(statement.right)
        if statement.left is None:
            return '  assert %s;\n' % right
        left = ', '.join(statement.left)
        if len(statement.left) > 1 and not self.chance(0.3):
            left = '(%s)' % left
        return '  %s = %s;\n' % (left, right)

    def node(self, node):
        parameters = ['const %s: int' % parameter for parameter in node.parameters]
        text = '%s %s%s(%s) returns (%s)%s\n' % (
            node.kind, node.name,
            '<<%s>>' % self.separator().join(parameters) if parameters else '',
            '; '.join(self.declarations(node.inputs)), '; '.join(self.declarations(node.outputs)),
            '' if self.chance(0.2) else ';')
        if node.locals:
            text += 'var %s;\n' % '; '.join(self.declarations(node.locals))
        return text + 'let\n' + ''.join(map(self.statement, node.statements)) + 'tel\n'

    def program(self, program):
        text = ''
        for name, static in program.constants:
            type_ = ': int' if self.chance(0.5) else ''
            text += 'const %s%s = %s;\n' % (name, type_, self.static(static))
        return text + ''.join(map(self.node, program.nodes))
