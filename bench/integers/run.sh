#!/usr/bin/env bash
# Times lbench, with one worker, and a C program on the same traces of integers. The time of reading
# and reporting is measured with null.lus and subtracted; the C program has its rows in memory.
# Needs rt, gcc and awk on the path.
#
#     bench/integers/run.sh [LBENCH [RECORDS]]
#
# With the path of a program it times that program, and builds nothing.
set -euo pipefail
here=$(cd "$(dirname "$0")" && pwd)
. "$here/../workspace.sh"

lbench=${1:-$here/../../crates/lbench/out/lbench}
records=${2:-600000}
[ $# -gt 0 ] || (cd "$here/../../crates/lbench" && quietly rt run -- --help)
gcc -O2 -o "$work/tanks" "$here/tanks.c"
awk -v records="$records" -f "$here/make_traces.awk" > "$work/fixed.csv"
awk -v records="$records" -v mixed=1 -f "$here/make_traces.awk" > "$work/mixed.csv"

# Runs the bench on a source and the traces of these lengths, and keeps the report and the
# microseconds. Status 1 only means that some trace fails.
timed() {
    local source=$1 lengths=$2 option=${3:-}
    local start=${EPOCHREALTIME/[.,]/}
    "$lbench" $option "$here/$source.lus" "$work/$lengths.csv" > "$work/report" || [ $? = 1 ]
    echo "$source$option $lengths $((${EPOCHREALTIME/[.,]/} - start))" >> "$work/times"
}

# The runs take turns, so that other load on the machine falls on all of them.
for _ in 1 2 3 4 5 6 7 8 9; do
    for lengths in fixed mixed; do
        "$work/tanks" "$work/$lengths.csv" > "$work/$lengths.report" 2> "$work/nanoseconds"
        echo "c $lengths $(cat "$work/nanoseconds")" >> "$work/times"
        for option in '' --by-length; do
            timed tanks $lengths $option
            cmp "$work/$lengths.report" "$work/report"
            timed null $lengths $option
        done
    done
done

for lengths in fixed mixed; do echo "$lengths: $(tail -n 1 "$work/$lengths.report")"; done
awk -v records="$records" '
    !(($1, $2) in least) || $3 < least[$1, $2] { least[$1, $2] = $3 }
    END {
        printf "%-20s %10s %10s %13s %8s %8s\n", "", "seconds", "null", "ns an instant", "gcc -O2",
            "ratio"
        for (l = 1; l <= split("fixed mixed", lengths, " "); l++)
            for (o = 0; o <= 1; o++) {
                option = o ? "--by-length" : ""
                whole = least["tanks" option, lengths[l]]
                null = least["null" option, lengths[l]]
                bench = (whole - null) * 1e3 / records
                printf "%-20s %10.3f %10.3f %13.1f %8.1f %8.2f\n", lengths[l] " " option,
                    whole / 1e6, null / 1e6, bench, least["c", lengths[l]],
                    bench / least["c", lengths[l]]
            }
    }' "$work/times"
