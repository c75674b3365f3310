#!/usr/bin/env bash
# Runs lbench on difficult streams: a named pipe whose writer ends at once, streams that do not
# block, an output that nobody reads, a limit of file size, a path that is not UTF-8. Each answer is
# compared with the table of docs/FORMATS.md, section 3. Needs rt, mkfifo and python3 on the path.
# With a path as its argument that program is tried.
#
#     bench/hostile/streams.sh [PROGRAM]
set -euo pipefail
here=$(cd "$(dirname "$0")" && pwd)
crates=$(cd "$here/../../crates" && pwd)
lbench=$(realpath "${1:-$crates/lbench/out/lbench}")
[ $# -gt 0 ] || (cd "$crates/lbench" && rt run -- --help > /dev/null)
work=$(mktemp -d)
trap 'rm -rf "$work"' EXIT
cd "$work"
failed=0

# is NAME WANTED FOUND
is() {
    if [ "$2" = "$3" ]; then echo "ok     $1"; else
        echo "WRONG  $1: wanted $2, found $3"
        failed=1
    fi
}

echo 'node main(x: int) returns (ok: bool); let ok = x < 12; tel' > source.lus
awk 'BEGIN { print "trace,x"; for (n = 0; n < 200000; n++) print "t" n "," n % 7 }' > traces.csv

# A named pipe, with 1, 2 and 0 workers. The writer writes, closes and ends.
mkfifo pipe
right=0
for turn in $(seq 1 20); do
    for workers in 1 2 0; do
        (printf 'trace,x\na,1\nb,17\n' > pipe) &
        timeout 5 "$lbench" --workers "$workers" source.lus pipe > report 2> errors || true
        wait
        [ "$(head -n 2 report | tr '\n' ' ')" = "a passed b false 0 " ] && right=$((right + 1))
    done
done
is "a pipe with a name, 60 runs" 60 "$right"

status=0
"$lbench" $'\xff.lus' traces.csv > report 2> errors || status=$?
is "a path that is not UTF-8" "2 refused: E20 usage" "$status $(cat errors)"

# The output reaches a limit, and the signal for it is ignored.
status=0
(trap '' XFSZ; ulimit -f 64; exec "$lbench" source.lus traces.csv > limited 2> errors) || status=$?
is "a limit of file size, its signal ignored" "3 refused: E19 write" "$status $(cat errors)"

# The signal ends the run.
status=0
(ulimit -f 64; exec "$lbench" source.lus traces.csv > limited 2> errors) || status=$?
is "a limit of file size" "153 " "$status $(cat errors)"

is "streams that do not block, or that nobody reads" "$(cat "$here/streams.wanted")" \
    "$(python3 "$here/streams.py" "$lbench")"
exit $failed
