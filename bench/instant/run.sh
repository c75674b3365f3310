#!/usr/bin/env bash
# Prints where an instant of a trace spends its time in the lanes of lb_sim, and the instructions of
# its code. Without arguments it does so for the programs of the folders beside it.
# The crates are proved and built by LLVM as the merge gate builds them. Needs rt and awk.
#
#     bench/instant/run.sh [SOURCE TRACES [NODE [OBSERVER]]]
set -euo pipefail
here=$(cd "$(dirname "$0")" && pwd)
top=$(cd "$here/../.." && pwd)
. "$here/../workspace.sh"

workspace "$(grep -E '^lb_(syntax|static|check|traces|flat|expand|lanes|machine|sim|trace):' "$top/crates.txt")
instant_bench: lb_sim lb_trace lb_expand lb_flat lb_traces lb_machine lb_lanes lb_check lb_static lb_syntax" \
    "$top"/crates/lb_{syntax,static,check,traces,flat,expand,lanes,machine,sim,trace} "$here/instant_bench"
cp "$top/HANDLES" "$work/"
(cd "$work/crates/instant_bench" && quietly rt run)

# Keeps what the program prints about a source and its traces.
timed() {
    "$work/crates/instant_bench/out/instant_bench" "${@:2}" | sed "s/^/$1 /" >> "$work/told"
}

# The runs take turns, so that other load on the machine falls on all of them.
for _ in 1 2 3; do
    if [ $# -gt 0 ]; then
        timed "$(basename "$1" .lus)" "$1" "$2" "${3:-main}" ${4:+"$4"}
        continue
    fi
    for name in integers/tanks run/tank_farm workers/interlock; do
        traces=$work/$(basename "$name").csv
        [ -e "$traces" ] ||
            awk -v records=200000 -f "$top/bench/$(dirname "$name")/make_traces.awk" > "$traces"
        timed "$(basename "$name")" "$top/bench/$name.lus" "$traces" main
    done
done

awk '
    $2 != "kind" && $2 != "times" { print; next }
    !($1 in seen) { seen[$1]; names[++count] = $1 }
    $2 == "kind" && !(($1, $3) in general) {
        if (!($3 in kinds)) { kinds[$3]; kind[++kind_count] = $3 }
        general[$1, $3] = $4
        steady[$1, $3] = $5
    }
    $2 == "times" {
        for (i = 3; i <= 8; i++)
            if (!(($1, i) in least) || $i < least[$1, i]) least[$1, i] = $i
        share[$1] = $9 / 1000
    }
    END {
        printf "%-12s %8s %8s %8s %8s %8s %8s %8s %8s\n", "ns", "load", "general", "steady",
            "share", "judge", "memories", "rest", "all"
        for (n = 1; n <= count; n++) {
            name = names[n]
            for (i = 3; i <= 8; i++) ns[i] = least[name, i] / 1000
            code = share[name] * ns[5] + (1 - share[name]) * ns[4]
            printf "%-12s %8.1f %8.1f %8.1f %8.2f %8.1f %8.1f %8.1f %8.1f\n", name, ns[3], ns[4],
                ns[5], share[name], ns[6], ns[7], ns[8] - ns[3] - code - ns[6] - ns[7], ns[8]
        }
        printf "\n%-12s", "instructions"
        for (k = 1; k <= kind_count; k++) printf " %9s", kind[k]
        print ""
        for (n = 1; n <= count; n++) {
            printf "%-12s", names[n]
            for (k = 1; k <= kind_count; k++)
                printf " %9s", general[names[n], kind[k]] "/" steady[names[n], kind[k]]
            print ""
        }
    }' "$work/told"
