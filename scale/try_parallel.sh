#!/bin/sh
# Tries the recipe for GNU parallel on a text that one run can take, in 1 to 25 parts, with 1 and
# with 4 jobs. Each merged report has to be, byte for byte, the report of the whole text. Then the
# report of a part is removed, and the recipe is run again.
#
#     LBENCH=crates/lbench/out/lbench scale/try_parallel.sh [BYTES]
set -eu
here=$(cd "$(dirname "$0")" && pwd)
LBENCH=$(realpath "${LBENCH:-$(command -v lbench)}")
export LBENCH
work=$(mktemp -d)
trap 'rm -rf "$work"' EXIT
"$here/make_traces.sh" "${1:-20000000}" >"$work/traces.csv"
status=0
"$LBENCH" "$here/valve.lus" "$work/traces.csv" >"$work/whole" || status=$?
for count in 1 2 3 7 25; do
    for jobs in 1 4; do
        merged=0
        "$here/parallel.sh" "$work/parts.$count.$jobs" "$count" "$jobs" "$here/valve.lus" \
            "$work/traces.csv" >"$work/merged" || merged=$?
        cmp "$work/whole" "$work/merged"
        [ "$status" -eq "$merged" ]
        echo "$count parts, $jobs jobs: the report of the whole, status $merged"
    done
done
rm "$work/parts.7.4/00003.report"
lost=0
"$here/merge.sh" "$work/parts.7.4" 7 >"$work/merged" 2>"$work/said" || lost=$?
cat "$work/said"
[ "$lost" -eq 3 ]
"$here/parallel.sh" "$work/parts.7.4" 7 4 "$here/valve.lus" "$work/traces.csv" >"$work/merged" || :
cmp "$work/whole" "$work/merged"
echo "the lost part was judged again"
tail -n 1 "$work/whole"
