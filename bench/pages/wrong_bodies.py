#!/usr/bin/env python3
"""Writes the tables of docs/WRONG_BODIES.md: a row for each edit, with its line `plants:`.

The edits that the gate plants stand first, a table for each crate. The last table has those that
`bench/wrong_bodies/run.py` plants.

    bench/pages/wrong_bodies.py [--check]

With `--check` nothing is written, and the status is 1 if the page has other tables.
"""

import glob
import os
import sys

ROOT = os.path.dirname(os.path.dirname(os.path.dirname(os.path.abspath(__file__))))
PAGE = os.path.join(ROOT, 'docs/WRONG_BODIES.md')
FURTHER = '''
The gate does not plant these: `bench/wrong_bodies/run.py` does. They are mostly in functions inside
a crate, and a promise of the layer above covers most of them.
'''


def crates():
    """The names of the crates, lowest first."""
    with open(os.path.join(ROOT, 'crates.txt')) as file:
        return [line.split(':')[0] for line in file if ':' in line and not line.startswith('#')]


def planted(edit):
    """What an edit plants."""
    with open(edit) as file:
        for line in file:
            if line.startswith('plants: '):
                return line[len('plants: '):].strip()
    sys.exit('%s has no line `plants:`' % edit)


def rows(folder):
    """A row for each edit of a folder, without the bar that begins a line."""
    edits = sorted(glob.glob(os.path.join(ROOT, folder, '*.edit')))
    return [' `%s` | %s |\n' % (os.path.basename(edit)[:-len('.edit')], planted(edit))
            for edit in edits]


def table(crate):
    """The section of a crate, or nothing where it has no edits."""
    head = '\n## `%s`\n\n| Edit | What it plants |\n|---|---|\n' % crate
    found = rows('crates/%s/must-fail' % crate)
    return head + ''.join('|' + row for row in found) if found else ''


def further():
    """The section of the edits that the gate does not plant."""
    head = '\n## Further wrong bodies\n%s\n' % FURTHER
    head += '| Crate | Edit | What it plants |\n|---|---|---|\n'
    return head + ''.join('| `%s` |%s' % (crate, row)
                          for crate in crates() for row in rows('bench/wrong_bodies/%s' % crate))


def main(option=None):
    with open(PAGE) as file:
        page = file.read()
    made = page.split('\n## ')[0] + ''.join(table(crate) for crate in crates()) + further()
    if option == '--check':
        return int(made != page)
    with open(PAGE, 'w') as file:
        file.write(made)
    return 0


sys.exit(main(*sys.argv[1:]))
