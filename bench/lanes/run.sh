#!/usr/bin/env bash
# Times each lane kernel beside the same work as a plain loop in C, in nanoseconds for 64 lanes.
# The kernels are proved and built by LLVM as the merge gate builds them, the loops by gcc -O2.
# Needs rt and gcc on the path. It works in a folder of its own, which it removes at the end.
set -euo pipefail
here=$(cd "$(dirname "$0")" && pwd)
crates=$(cd "$here/../../crates" && pwd)
. "$here/../workspace.sh"

workspace "lb_lanes:
lanes_bench: lb_lanes" "$crates/lb_lanes" "$here/lanes_bench"

gcc -O2 -o "$work/plain" "$here/main.c" "$here/plain.c"
(cd "$work/crates/lanes_bench" && quietly rt run)
# The two programs take turns, so that other load on the machine falls on both.
for _ in 1 2 3 4 5; do
    "$work/crates/lanes_bench/out/lanes_bench" >> "$work/kernels"
    "$work/plain" >> "$work/loops"
done

printf '%-16s %8s %8s %8s\n' kernel rattle 'gcc -O2' times
least() { sort -k1,1 -k2,2n "$1" | awk '!seen[$1]++'; }
join <(least "$work/kernels") <(least "$work/loops") | awk '
    {
        printf "%-16s %8.1f %8.1f %8.2f%s\n", $1, $2 / 1000, $4 / 1000, $4 / $2,
            $3 != $5 ? "  (other answers)" : ""
    }'
