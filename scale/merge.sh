#!/bin/sh
# Joins the reports of all parts.
#
#     scale/merge.sh FOLDER N [OPTION ..]
#
# Prints the report of the whole file, with the status of a run over the whole file. If the report
# of a part is missing, it names that part, and the status is 3. OPTION is one that goes with
# --merge: --strict, --baseline, --format. LBENCH names the program.
set -u
folder=$1 count=$2
shift 2
missing=0
number=1
while [ "$number" -le "$count" ]; do
    name=$(printf '%s/%05d.report' "$folder" "$number")
    if [ ! -f "$name" ]; then
        echo "missing: part $number of $count" >&2
        missing=3
    fi
    number=$((number + 1))
done
[ $missing -eq 0 ] || exit $missing
exec "${LBENCH:-lbench}" --explain "$@" --merge "$folder"/*.report
