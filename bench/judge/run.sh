#!/usr/bin/env bash
# Times `elaborate` and `check` beside `parse` on sources of about 1,000,000 bytes with 4,096
# instances: how many times longer the two take than `parse`, and the peak of memory. The crates are
# proved and built by LLVM as the merge gate builds them.
# Needs rt and GNU time on the path. It works in a folder of its own, which it removes at the end.
set -euo pipefail
here=$(cd "$(dirname "$0")" && pwd)
crates=$(cd "$here/../../crates" && pwd)
. "$here/../workspace.sh"

workspace "lb_syntax: thiserror
lb_static: lb_syntax indexmap thiserror
lb_check: lb_static lb_syntax
judge_bench: lb_check lb_static lb_syntax" \
    "$crates/lb_syntax" "$crates/lb_static" "$crates/lb_check" "$here/judge_bench"

# A tree of 4,096 nodes, each of which calls the two below it: each node has one instance.
nodes() {
    awk 'BEGIN {
        last = 4096
        for (n = 1; n <= last; n++) {
            name = n == 1 ? "main" : "n" n
            below = ""
            for (k = 2 * n; k <= 2 * n + 1 && k <= last; k++) below = below " and n" k "(x, a - " k ")"
            print "node " name "(x, y: int) returns (ok: bool);"
            print "var a, b: int; m: int^4;"
            print "let"
            print "  a = if x > y then (0 -> pre a) + x else y mod 7;"
            print "  m = [a, b, x, y]; b = m[2] - x div 2;"
            print "  ok = (a < b or b <= 100 or #(x > y, a > b))" below ";"
            print "tel"
        }
    }'
}

# Two nodes, one of which is called with 4,095 different static values.
values() {
    awk 'BEGIN {
        print "node below<<const n: int>>(x: int) returns (y: int);"
        print "var m: int^4; let m = x ^ 4; y = m[n mod 4] + n; tel"
        print "node main(x: int) returns (ok: bool);"
        print "var"
        for (n = 1; n <= 4095; n++) print "  v" n ": int; -- what is below with this value, " \
            "a long remark, so that the text is as long as the other one is, that of the tree"
        print "let"
        for (n = 1; n <= 4095; n++) print "  v" n " = below<<" n ">>(x + " n ") - (if x > " n \
            " then " n " else x * 2) + (0 -> pre v" n ");"
        print "  ok = v1 > v4095;"
        print "tel"
    }'
}

nodes > "$work/nodes.lus"
values > "$work/values.lus"
(cd "$work/crates/judge_bench" && quietly rt run < "$work/nodes.lus")
# The two texts take turns, so that other load on the machine falls on both.
for _ in $(seq 10); do
    for text in nodes values; do
        env time -f "%M" -o "$work/peak" "$work/crates/judge_bench/out/judge_bench" \
            < "$work/$text.lus" > "$work/times"
        echo "$text $(cat "$work/times") $(cat "$work/peak")"
    done
done | awk '
    NF != 6 { print; next }
    {
        if (!($1 in bytes)) names[++count] = $1
        bytes[$1] = $2
        if (!($1 in parse) || $3 < parse[$1]) parse[$1] = $3
        if (!($1 in rest) || $4 + $5 < rest[$1]) { rest[$1] = $4 + $5; static[$1] = $4; types[$1] = $5 }
        if ($6 > peak[$1]) peak[$1] = $6
    }
    END {
        for (i = 1; i <= count; i++) {
            n = names[i]
            printf "%-7s %8d bytes: parse %.1f ms, elaborate %.1f ms, check %.1f ms\n", n, bytes[n],
                parse[n] / 1000, static[n] / 1000, types[n] / 1000
            printf "        %.2f times parse, wanted under 10; %.0f bytes a byte, wanted under 200\n",
                rest[n] / parse[n], peak[n] * 1024 / bytes[n]
        }
    }'
