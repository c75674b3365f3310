#!/usr/bin/env bash
# Measures the time and the peak of memory of lbench on trace texts that are judged round by round:
# from a file, a pipe, a named pipe and standard input, with one worker and with four; a text, and
# one that is ten times as long; a text with quotes, and one that is refused in its last record; a
# million traces of one instant, and one trace of a million instants. A C program judges the same
# traces in one pass, for comparison. Needs rt, gcc, awk and GNU time on the path.
#
#     bench/rounds/run.sh [LBENCH [RECORDS]]
#
# With the path of a program it times that program, and builds nothing.
set -euo pipefail
here=$(cd "$(dirname "$0")" && pwd)
. "$here/../workspace.sh"

lbench=${1:-$here/../../crates/lbench/out/lbench}
records=${2:-500000}
[ $# -gt 0 ] || (cd "$here/../../crates/lbench" && quietly rt run -- --help)
gcc -O2 -o "$work/stream" "$here/stream.c"
tanks=$here/../integers/tanks.lus
make_traces=$here/../integers/make_traces.awk

awk -v records="$records" -v mixed=1 -f "$make_traces" > "$work/text.csv"
awk -v records=$((10 * records)) -v mixed=1 -f "$make_traces" > "$work/tenfold.csv"
awk -F, -v OFS=, 'NR > 1 { $1 = "\"" $1 "\"" } { print }' "$work/text.csv" > "$work/quoted.csv"
sed '$ s/$/x/' "$work/text.csv" > "$work/refused.csv"
awk 'BEGIN { print "trace,x"; for (n = 0; n < 1000000; n++) print "t" n "," n % 7 }' \
    > "$work/short.csv"
awk 'BEGIN { print "trace,x"; for (n = 0; n < 1000000; n++) print "long," n % 7 }' \
    > "$work/long.csv"
echo 'node main(x: int) returns (ok: bool); let ok = x < 7; tel' > "$work/one.lus"
mkfifo "$work/fifo"

# timed NAME REPORT WORD ..: runs a program, and keeps its processor time, its seconds, its peak
# of memory in KiB and its report.
timed() {
    local name=$1 report=$2
    shift 2
    env time -f "%U %S %e %M" -o "$work/time" "$@" > "$work/$report" 2> "$work/errors" || true
    echo "$name $(tail -n 1 "$work/time")" >> "$work/times"
}

# each WORKERS: a run on each text.
each() {
    local count=$1 text
    local run=("$lbench" --workers "$count")
    for text in text tenfold quoted refused; do
        timed "$text,file,$count" "$text.$count" "${run[@]}" "$tanks" "$work/$text.csv"
    done
    for text in text tenfold; do
        timed "$text,pipe,$count" "$text.pipe.$count" "${run[@]}" "$tanks" \
            < <(cat "$work/$text.csv")
        timed "$text,input,$count" "$text.input.$count" "${run[@]}" "$tanks" < "$work/$text.csv"
        cat "$work/$text.csv" > "$work/fifo" &
        timed "$text,named,$count" "$text.named.$count" "${run[@]}" "$tanks" "$work/fifo"
        wait
    done
    timed "short,file,$count" "short.$count" "${run[@]}" "$work/one.lus" "$work/short.csv"
    timed "long,file,$count" "long.$count" "${run[@]}" "$work/one.lus" "$work/long.csv"
}

# The runs take turns, so that other load on the machine falls on all of them.
for _ in 1 2 3 4 5; do
    for text in text tenfold; do timed "$text,c,1" "$text.c" "$work/stream" "$work/$text.csv"; done
    each 1
    each 4
done

# All reports of a text are the same, whichever program judged it and wherever it came from.
for text in text tenfold; do
    for way in 1 4 pipe.1 pipe.4 input.1 input.4 named.1 named.4; do
        cmp "$work/$text.c" "$work/$text.$way"
    done
done
cmp "$work/text.c" "$work/quoted.1"
cmp "$work/text.c" "$work/quoted.4"

awk '
    {
        used = $2 + $3
        if (!($1 in least) || used < least[$1]) least[$1] = used
        if (!($1 in wall) || $4 < wall[$1]) wall[$1] = $4
        if ($5 > peak[$1]) peak[$1] = $5
        if (!seen[$1]++) names[++count] = $1
    }
    function megabytes(name) { return peak[name] * 1024 / 1e6 }
    END {
        printf "%-9s %-6s %7s %10s %9s %8s %s\n", "text", "from", "workers", "processor", "seconds",
            "peak MB", "wanted"
        for (i = 1; i <= count; i++) {
            split(names[i], part, ",")
            wanted = ""
            if (part[1] == "text" || part[1] == "tenfold" || part[1] == "refused")
                if (part[2] != "c") wanted = "at most " 24 + 2 * part[3] " MB"
            if (names[i] == "short,file,1") wanted = "under 0.15 s"
            printf "%-9s %-6s %7d %10.2f %9.2f %8.1f %s\n", part[1], part[2], part[3],
                least[names[i]], wall[names[i]], megabytes(names[i]), wanted
        }
        printf "one worker beside C: %.2f, wanted at most 1\n",
            least["text,file,1"] / least["text,c,1"]
        printf "four workers beside one: %.2f times as fast, wanted 3.3\n",
            wall["text,file,1"] / wall["text,file,4"]
        printf "ten times the text: %.2f times as long, wanted at most 10.5\n",
            least["tenfold,file,1"] / least["text,file,1"]
        printf "refused in the last record: %.2f, wanted at most 1.2\n",
            least["refused,file,1"] / least["text,file,1"]
    }' "$work/times"
