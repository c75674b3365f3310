#!/usr/bin/env bash
# Times lbench on large trace texts, with one worker and with four, beside a program that reads the
# records of the same texts with csv, counts their cells and does nothing else. Both are proved and
# built by LLVM as the merge gate builds them. Needs rt, awk and GNU time on the path.
#
#     bench/run/run.sh [RECORDS]
set -euo pipefail
records=${1:-570000}
here=$(cd "$(dirname "$0")" && pwd)
lbench=$(cd "$here/../../crates/lbench" && pwd)
. "$here/../workspace.sh"

workspace "count_cells: csv anyhow" "$here/count_cells"
(cd "$work/crates/count_cells" && quietly rt run)
(cd "$lbench" && quietly rt run -- --help)

make_text() { awk -v records="$records" "${@:2}" -f "$here/make_traces.awk" > "$work/$1.csv"; }
make_text integers
make_text quoted -v quoted=1
make_text booleans -v booleans=1

# Runs a program on a text, and keeps its output, its seconds and its peak of memory in KiB.
timed() {
    local text=$1 name=$2
    shift 2
    env time -f "$text $name %e %M" -o "$work/times" -a "$@" "$work/$text.csv" \
        > "$work/$text.$name.out"
}

# The runs take turns, so that other load on the machine falls on all of them.
for _ in 1 2 3 4 5; do
    for text in integers quoted booleans; do
        source=$here/tank_farm.lus
        [ $text != booleans ] || source=$here/doors.lus
        timed $text count_cells "$work/crates/count_cells/out/count_cells"
        timed $text lbench "$lbench/out/lbench" "$source"
        timed $text four_workers "$lbench/out/lbench" --workers 4 "$source"
    done
done

# The bench has judged each trace, with one worker as with four, and the other program has counted
# each cell.
for text in integers quoted booleans; do
    cmp "$work/$text.lbench.out" "$work/$text.four_workers.out"
    echo "$text $(wc -c < "$work/$text.csv") $(cat "$work/$text.count_cells.out")" >> "$work/texts"
    echo "$text: $(tail -n 1 "$work/$text.lbench.out")"
done
awk -v records="$records" '
    NR == FNR { bytes[$1] = $2; counted[$1] = $3; next }
    {
        if (!(($1, $2) in least) || $3 < least[$1, $2]) least[$1, $2] = $3
        if ($4 > peak[$1, $2]) peak[$1, $2] = $4
    }
    END {
        printf "%-9s %-12s %8s %8s %9s %9s %s\n", "", "", "seconds", "MB/s", "peak MB", "ratio",
            "wanted"
        for (t = 1; t <= split("integers quoted booleans", texts, " "); t++) {
            text = texts[t]
            columns = text == "booleans" ? 40 : 20
            if (counted[text] != (records + 1) * (columns + 1))
                print "count_cells counted " counted[text] " cells of " text
            beside = least[text, "count_cells"]
            for (i = 1; i <= split("count_cells lbench four_workers", names, " "); i++) {
                name = names[i]
                seconds = least[text, name]
                speed = seconds ? bytes[text] / 1e6 / seconds : 0
                ratio = beside ? seconds / beside : 0
                wanted = name == "lbench" ? "at most 3" : ""
                printf "%-9s %-12s %8.2f %8.0f %9.0f %9.2f %s\n", text, name, seconds, speed,
                    peak[text, name] * 1024 / 1e6, ratio, wanted
            }
            cells = (columns == 20 ? 4 : 0.25) * columns * records
            printf "%-9s peak wanted at most %.0f MB\n", text, (bytes[text] + cells) / 1e6 + 20
        }
    }' "$work/texts" "$work/times"
