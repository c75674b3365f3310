#!/usr/bin/env bash
# Times lbench on programs at the limits: many specializations, many instances, large sizes, and a
# million traces of one instant. lbench is proved and built by LLVM as the merge gate builds it.
# Needs rt, awk and GNU time on the path. With a path as its argument that program is timed.
#
#     bench/large/run.sh [PROGRAM]
set -euo pipefail
here=$(cd "$(dirname "$0")" && pwd)
crates=$(cd "$here/../../crates" && pwd)
lbench=${1:-$crates/lbench/out/lbench}
. "$here/../workspace.sh"

[ $# -gt 0 ] || (cd "$crates/lbench" && quietly rt run -- --help)

source() { awk -v which="$1" -f "$here/sources.awk" > "$work/$1.lus"; }

# Runs the bench, and keeps its seconds, its peak of memory in KiB and its answer.
timed() {
    local name=$1 traces=$2
    env time -f "%e %M" -o "$work/time" "$lbench" "$work/$name.lus" "$work/$traces.csv" \
        > "$work/report" 2> "$work/errors" || true
    echo "$name $(tail -n 1 "$work/time") $(cat "$work/errors" <(tail -n 1 "$work/report"))" \
        >> "$work/times"
}

for name in trivial sizes literals instances arrays scalars burner reading; do source "$name"; done
echo trace,x > "$work/none.csv"
awk 'BEGIN {
    print "trace,start,flame,reset"
    for (n = 0; n < 1000000; n++) print "t" n "," n % 2 "," 0 "," (n % 7 == 0)
}' > "$work/traces.csv"
(printf trace; for n in $(seq 0 98); do printf ',a[%s]' "$n"; done; echo) > "$work/row.csv"

# The runs take turns, so that other load on the machine falls on all of them.
for _ in 1 2 3 4 5; do
    timed trivial none
    timed sizes none
    timed literals row
    for name in instances arrays scalars; do timed "$name" none; done
    timed reading traces
    timed burner traces
done

awk '
    !($1 in least) || $2 < least[$1] { least[$1] = $2 }
    { if ($3 > peak[$1]) peak[$1] = $3; answer[$1] = $4 " " $5 " " $6 " " $7 }
    function wanted(name, limit, size,   above) {
        printf "%-10s %8.2f s %8.1f MB   %-24s", name, least[name], peak[name] * 1024 / 1e6,
            answer[name]
        if (size) {
            above = (peak[name] - peak["trivial"]) * 1024 / size
            printf " wanted under %s s; %.0f bytes a unit of size, with the room of a worker", limit, above
        } else if (limit) printf " wanted under %s s and 100 MB", limit
        print ""
    }
    END {
        wanted("trivial")
        wanted("sizes", 2)
        wanted("literals", 2)
        wanted("instances", 0.5, 53239)
        wanted("arrays", 0.5, 61447)
        wanted("scalars", 0.5, 65453)
        wanted("reading")
        wanted("burner")
        printf "a trace of one instant: %.0f ns, reading alone %.0f ns, wanted under twice that\n",
            least["burner"] * 1000, least["reading"] * 1000
    }' "$work/times"
