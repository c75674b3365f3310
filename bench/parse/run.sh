#!/usr/bin/env bash
# Times `parse` on lists of nodes of about 100,000 and 1,000,000 bytes: how many times longer the
# longer text takes. `lb_syntax` is proved and built by LLVM as the merge gate builds it.
# Needs rt on the path. It works in a folder of its own, which it removes at the end.
set -euo pipefail
here=$(cd "$(dirname "$0")" && pwd)
crates=$(cd "$here/../../crates" && pwd)
. "$here/../workspace.sh"

workspace "lb_syntax: thiserror
parse_bench: lb_syntax" "$crates/lb_syntax" "$here/parse_bench"

# One node after the other, each of these nine lines, as many as fit into this many bytes.
nodes() {
    awk -v limit="$1" 'BEGIN {
        for (n = 0; ; n++) {
            node = sprintf("node n%d(x, y: int; c: bool) returns (ok: bool);\n", n) \
                "var\n  a, b: int; -- two locals\n" \
                "let\n  a = if c then (0 -> pre a) + x * 3 else y mod 7;\n" \
                "  b = a - (if x < y then -x else y) div 2;\n" \
                "  assert x <> y or c;\n  ok = #(c, a < b, b <= 100) and not (a = b => c);\ntel\n"
            total += length(node)
            if (total > limit) exit
            printf "%s", node
        }
    }'
}

nodes 100000 > "$work/shorter.lus"
nodes 1000000 > "$work/longer.lus"
(cd "$work/crates/parse_bench" && quietly rt run < "$work/shorter.lus")
# The two texts take turns, so that other load on the machine falls on both.
for _ in $(seq 20); do
    for text in shorter longer; do
        "$work/crates/parse_bench/out/parse_bench" < "$work/$text.lus"
    done
done | sort -k1,1n -k2,2n | awk '
    !($1 in least) { least[$1] = $2; texts[++n] = $1; printf "%9d bytes %9.1f ms\n", $1, $2 / 1000 }
    END { printf "the longer text takes %.1f times as long\n", least[texts[2]] / least[texts[1]] }'
