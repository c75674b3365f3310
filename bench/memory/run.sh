#!/usr/bin/env bash
# Refuses each request for memory of a run in turn. The runs have 0, 1 and 7 workers, with and
# without --by-length; the traces come from a file, from standard input and from a
# case text; one source is refused; some reports are live. Each run has to answer E0 with status 3,
# and with no output or the first bytes of a live report. It may also answer as with ample memory,
# since some requests are not needed. lbench is proved and built by LLVM as the merge gate builds
# it. Needs rt and cc on the path. With a path as its argument that program is tried.
#
#     bench/memory/run.sh [PROGRAM]
set -euo pipefail
here=$(cd "$(dirname "$0")" && pwd)
crates=$(cd "$here/../../crates" && pwd)
examples=$(cd "$here/../../examples" && pwd)
lbench=${1:-$crates/lbench/out/lbench}
[ $# -gt 0 ] || (cd "$crates/lbench" && rt run -- --help > /dev/null)
work=$(mktemp -d)
trap 'rm -rf "$work"' EXIT
cc -O2 -shared -fPIC -o "$work/refuse.so" "$here/refuse.c"

# once NUMBER INPUT WORD ..: one run in which the request of that number is refused (0: none).
once() {
    local number=$1 input=$2
    shift 2
    status=0
    REFUSED=$number COUNTED=$work/count LD_PRELOAD=$work/refuse.so \
        "$lbench" "$@" < "$input" > "$work/output" 2> "$work/errors" || status=$?
}

# may_be_out WORD ..: whether a run whose request was refused may leave this output: it may leave
# nothing, or with --follow the first bytes of the report.
may_be_out() {
    local size
    size=$(stat -c %s "$work/output")
    case " $* " in
        *" --follow "*) cmp -s -n "$size" "$work/output" "$work/report" ;;
        *) [ "$size" = 0 ] ;;
    esac
}

# each INPUT WORD ..: a run for each request, and one more with ample memory.
each() {
    local input=$1 requests wanted number refusals=0
    shift
    once 0 "$input" "$@"
    requests=$(cat "$work/count")
    wanted=$status
    cp "$work/output" "$work/report"
    cp "$work/errors" "$work/refusal"
    for ((number = 1; number <= requests; number++)); do
        once "$number" "$input" "$@"
        if [ "$status" = 3 ] && may_be_out "$@" \
            && [ "$(cat "$work/errors")" = "refused: E0 memory" ]; then
            refusals=$((refusals + 1))
        elif [ "$status" != "$wanted" ] || ! cmp -s "$work/output" "$work/report" \
            || ! cmp -s "$work/errors" "$work/refusal"; then
            echo "lbench $*: request $number: status $status" >&2
            cat "$work/output" "$work/errors" >&2
            exit 1
        fi
    done
    once 0 "$input" "$@"
    cmp "$work/output" "$work/report"
    echo "$requests requests, $refusals E0: lbench $*"
}

for workers in 0 1 7; do
    for order in "" --by-length; do
        # shellcheck disable=SC2086 # No word stands for no option.
        each /dev/null --workers "$workers" --batch 1 $order \
            "$examples/burner.lus" "$examples/burner.csv"
    done
done
each "$examples/burner.csv" "$examples/burner.lus"
(cat "$examples/burner.lus"; echo %traces; cat "$examples/burner.csv") > "$work/case"
each "$work/case"
each /dev/null --node no_such_node "$examples/burner.lus" "$examples/burner.csv"
for workers in 1 7; do
    each /dev/null --follow --workers "$workers" --batch 1 \
        "$examples/burner.lus" "$examples/burner.csv"
done
each "$work/case" --follow
each /dev/null --check "$examples/burner.lus"
each /dev/null --header "$examples/burner.lus"
each /dev/null --help
