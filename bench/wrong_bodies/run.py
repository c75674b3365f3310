#!/usr/bin/env python3
"""Tries the wrong bodies that the gate does not plant.

    bench/wrong_bodies/run.py [--places] [CRATE ..]

For each crate (all that have a folder here, if none is named) the edits of its folder are laid
beside a copy of its sources, and `rt must-fail` tries them. The copy uses what the checkout has
proved: run `rt lib` in the crate's folder first, or the crates below are proved once more.
With --places nothing is proved: it is looked whether each `old:` stands once in its file.
"""

import glob
import os
import re
import shutil
import subprocess
import sys
import tempfile

HERE = os.path.dirname(os.path.abspath(__file__))
ROOT = os.path.dirname(os.path.dirname(HERE))


def edits(crate):
    """The files of a crate's edits."""
    return sorted(glob.glob(os.path.join(HERE, crate, '*.edit')))


def lost_places(crate):
    """A line for each `old:` of a crate's edits that does not stand once in its file."""
    for edit in edits(crate):
        with open(edit) as file:
            text = file.read()
        path = re.search(r'^file: (.*)$', text, re.M)[1]
        with open(os.path.join(ROOT, 'crates', crate, path)) as file:
            code = file.read()
        for old in re.findall(r'^old: (.*)$', text, re.M):
            if code.count(old) != 1:
                yield '%s: %d times: %s' % (os.path.relpath(edit, ROOT), code.count(old), old)


def lay(room, crate):
    """Lays the checkout into a folder, with the edits of one crate for all that it has."""
    shutil.copy(os.path.join(ROOT, 'crates.txt'), room)
    shutil.copy(os.path.join(ROOT, 'HANDLES'), room)
    # What is built keeps its times, so that it counts as built, and takes no room.
    subprocess.run(['cp', '-al', os.path.join(ROOT, 'crates'), room], check=True)
    for planted in glob.glob(os.path.join(room, 'crates/*/must-fail')):
        shutil.rmtree(planted)
    folder = os.path.join(room, 'crates', crate, 'must-fail')
    os.makedirs(folder)
    for edit in edits(crate):
        shutil.copy(edit, folder)
    subprocess.run(['git', 'init', '-q', room], check=True)


def tried(crate):
    """Whether the prover refuses each edit of a crate."""
    with tempfile.TemporaryDirectory(dir=os.path.dirname(ROOT)) as room:
        lay(room, crate)
        return subprocess.run(['rt', 'must-fail', crate], cwd=room).returncode == 0


def main(words):
    every = sorted(name for name in os.listdir(HERE) if os.path.isdir(os.path.join(HERE, name)))
    crates = [word for word in words if word != '--places'] or every
    if '--places' in words:
        lost = [line for crate in crates for line in lost_places(crate)]
        print('\n'.join(lost) or 'each place stands once')
        return int(bool(lost))
    return int(not all([tried(crate) for crate in crates]))


sys.exit(main(sys.argv[1:]))
