#!/usr/bin/env bash
# Times lbench on the sources of hostile.py: 1,000,000 bytes each, and hard to judge. Each run is
# stopped after 60 s of processor time. Wanted are under 3 s and 500 MB for each source, whatever
# the answer is. Needs rt, python3 and GNU time on the path. With a path as its argument that
# program is timed; with names after the path, only these sources are run.
#
#     bench/large/hostile.sh [PROGRAM [NAME ...]]
set -euo pipefail
here=$(cd "$(dirname "$0")" && pwd)
crates=$(cd "$here/../../crates" && pwd)
lbench=${1:-$crates/lbench/out/lbench}
. "$here/../workspace.sh"

if [ $# -gt 0 ]; then shift; else (cd "$crates/lbench" && quietly rt run -- --help); fi
if [ $# -gt 0 ]; then
    names=$*
else
    names=$(python3 "$here/hostile.py" | cut -d: -f1)
fi

echo trace,x > "$work/none.csv"
for name in $names; do
    python3 "$here/hostile.py" "$name" 1000000 > "$work/source.lus"
    (ulimit -t 60 && exec env time -q -f "%U %S %M" -o "$work/time" \
        "$lbench" "$work/source.lus" "$work/none.csv") > "$work/report" 2> "$work/errors" || true
    answer=$(cat "$work/errors" "$work/report" | tail -n 1 | cut -c 1-60)
    tail -n 1 "$work/time" | awk -v name="$name" -v answer="${answer:-stopped}" '{
        seconds = $1 + $2
        peak = $3 * 1024 / 1e6
        over = seconds > 3 || peak > 500 ? "OVER " : ""
        printf "%-24s %6.2f s %8.1f MB   %s%s\n", name, seconds, peak, over, answer
    }'
done
