#!/usr/bin/env bash
# Times lbench on a million traces of one instant whose names are chosen to have the same hash in a
# table, and on a million whose names differ from these in one letter and have many hashes. The
# times should be alike. The names stand in falling order, or in no order. Needs rt, python3 and GNU
# time on the path. With a path as its argument that program is tried.
#
#     bench/hostile/names.sh [PROGRAM]
set -euo pipefail
here=$(cd "$(dirname "$0")" && pwd)
crates=$(cd "$here/../../crates" && pwd)
lbench=$(realpath "${1:-$crates/lbench/out/lbench}")
[ $# -gt 0 ] || (cd "$crates/lbench" && rt run -- --help > /dev/null)
work=$(mktemp -d)
trap 'rm -rf "$work"' EXIT
cd "$work"

echo 'node main(x: int) returns (ok: bool); let ok = x >= 0; tel' > main.lus
python3 - <<'PYTHON'
import random

COUNT = 1000000


def write(path, front, numbers):
    with open(path, 'w') as file:
        file.write('trace,x\n')
        file.writelines('%s%08d,1\n' % (front, k) for k in numbers)


random.seed(1)
falling = range(COUNT, 0, -1)
shuffled = random.sample(range(COUNT), COUNT)
for name, front in ('alike', 'eBb0EXvoAqLc.AK4I2d21qkd'), ('others', 'eBb0EXvoAqLc.AK4I2d21qke'):
    write('%s-falling.csv' % name, front, falling)
    write('%s-shuffled.csv' % name, front, shuffled)
PYTHON

for text in alike-falling others-falling alike-shuffled others-shuffled; do
    /usr/bin/time -f "$text: %U s of processor time, %M kB" \
        timeout 600 "$lbench" --workers 1 main.lus "$text.csv" > /dev/null
done
