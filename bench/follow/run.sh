#!/usr/bin/env bash
# Times lbench with --follow and without it, with 1, 4 and 64 workers, and shows when the first line
# of a live report goes out. Needs awk and python3 on the path, and rt if no path of a program is
# given.
#
#     bench/follow/run.sh [LBENCH [RECORDS]]
set -euo pipefail
here=$(cd "$(dirname "$0")" && pwd)
top=$(cd "$here/../.." && pwd)
lbench=${1:-$top/crates/lbench/out/lbench}
records=${2:-640000}
work=$(mktemp -d)
trap 'rm -rf "$work"' EXIT
[ $# -gt 0 ] || (cd "$top/crates/lbench" && rt run -- --help > /dev/null)

source=$top/bench/workers/interlock.lus
traces=$work/traces.csv
awk -v records="$records" -f "$top/bench/workers/make_traces.awk" > "$traces"

# Runs the bench with these options, and keeps the report and the microseconds.
timed() {
    local name=$1
    shift
    local start=${EPOCHREALTIME/[.,]/}
    "$lbench" "$@" "$source" "$traces" > "$work/$name.report" || [ $? -eq 1 ]
    echo "$name $((${EPOCHREALTIME/[.,]/} - start))" >> "$work/times"
}

# The runs take turns, so that other load on the machine falls on all of them.
for _ in 1 2 3 4 5; do
    for workers in 1 4 64; do
        timed "plain-$workers" --workers "$workers"
        timed "follow-$workers" --workers "$workers" --follow
        cmp "$work/plain-$workers.report" "$work/follow-$workers.report"
    done
done

echo "$(nproc) processors, $(stat -c %s "$traces") bytes of traces"
awk '
    !($1 in least) || $2 < least[$1] { least[$1] = $2 }
    END {
        printf "%-8s %9s %9s %9s\n", "workers", "plain", "follow", "times"
        for (i = 1; i <= split("1 4 64", numbers, " "); i++) {
            plain = least["plain-" numbers[i]]
            follow = least["follow-" numbers[i]]
            printf "%-8s %9.3f %9.3f %9.2f\n", numbers[i], plain / 1e6, follow / 1e6,
                follow / plain
        }
    }' "$work/times"
for workers in 1 4; do
    echo -n "$workers workers: "
    python3 "$here/first_line.py" "$traces" "$lbench" --follow --workers "$workers" "$source"
done
