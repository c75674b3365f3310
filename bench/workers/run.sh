#!/usr/bin/env bash
# Times lbench on a large text of Boolean traces with 1, 4 and 64 workers and with as many as rayon
# chooses (0); the time of reading and reporting is subtracted. Also times a claim from a claim
# board, by one thread and by two at once. All programs are proved and built by LLVM as the merge
# gate builds them. Needs rt and awk on the path.
#
#     bench/workers/run.sh [RECORDS]
set -euo pipefail
records=${1:-1600000}
here=$(cd "$(dirname "$0")" && pwd)
top=$(cd "$here/../.." && pwd)
lbench=$top/crates/lbench
. "$here/../workspace.sh"

workspace "$(grep -E '^lb_(syntax|static|check|traces|flat|plan|board):' "$top/crates.txt")
claim_bench: lb_board" \
    "$top"/crates/lb_{syntax,static,check,traces,flat,plan,board} "$here/claim_bench"
cp "$top/HANDLES" "$work/"
(cd "$work/crates/claim_bench" && quietly rt run)
(cd "$lbench" && quietly rt run -- --help)

awk -v records="$records" -f "$here/make_traces.awk" > "$work/traces.csv"

# Runs the bench with this number of workers on a source, and keeps the report and the microseconds.
timed() {
    local name=$1 workers=$2 source=$3
    local start=${EPOCHREALTIME/[.,]/}
    "$lbench/out/lbench" --workers "$workers" "$source" "$work/traces.csv" > "$work/$name.report"
    echo "$name $((${EPOCHREALTIME/[.,]/} - start))" >> "$work/times"
}

# The runs take turns, so that other load on the machine falls on all of them.
for _ in 1 2 3 4 5; do
    for workers in 1 4 64 0; do
        timed "reading-$workers" "$workers" "$here/reading.lus"
        timed "workers-$workers" "$workers" "$here/interlock.lus"
        cmp "$work/workers-1.report" "$work/workers-$workers.report"
    done
    "$work/crates/claim_bench/out/claim_bench" >> "$work/claims"
done

# The bench has judged each trace, and each passed.
tail -n 1 "$work/workers-1.report"
echo "$(nproc) processors, $records instants"
awk -v records="$records" '
    !($1 in least) || $2 < least[$1] { least[$1] = $2 }
    END {
        printf "%-8s %9s %9s %14s %14s %9s\n", "workers", "seconds", "reading", "minus reading",
            "ns an instant", "times"
        alone = least["workers-1"] - least["reading-1"]
        for (i = 1; i <= split("1 4 64 0", numbers, " "); i++) {
            whole = least["workers-" numbers[i]]
            reading = least["reading-" numbers[i]]
            rest = whole - reading
            printf "%-8s %9.3f %9.3f %14.3f %14.1f %9.2f\n", numbers[i], whole / 1e6,
                reading / 1e6, rest / 1e6, rest * 1e3 / records, (rest > 0 ? alone / rest : 0)
        }
    }' "$work/times"
awk '
    !($1 in least) || $2 < least[$1] { least[$1] = $2 }
    END {
        for (threads = 1; threads <= 2; threads++)
            printf "a claim, threads at once %d: %.1f ns, wanted under 100\n", threads,
                least[threads] / 1e3
    }' "$work/claims"
