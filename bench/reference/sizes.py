"""Programs that are filled up to a size: docs/LANGUAGE.md, section 15."""

from programs import Expression, Statement, Variable, number, truth

WHOLE = 4096


def with_size(program, size, wanted):
    """A copy of a program of one size that has another, greater one. The equation `Z = 0 ^ n` with
    its local adds 2 n + 1, the assertion `assert true` adds 1."""
    copy = program.copy()
    node = next(node for node in copy.nodes if node.name == program.main)
    missing, count = wanted - size, 0
    while missing >= 3:
        length = min(WHOLE, (missing - 1) // 2)
        filler, static = 'FILL%d' % count, ('number', length)
        node.locals.append(Variable(filler, 'int', (static,), None))
        node.statements.append(Statement([filler], Expression('power', [number(0)], static)))
        missing, count = missing - 2 * length - 1, count + 1
    node.statements += [Statement(None, truth(True)) for _ in range(missing)]
    return copy
