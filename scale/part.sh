#!/bin/sh
# Judges one part of a trace file, and keeps its report.
#
#     scale/part.sh FOLDER K N [OPTION ..] SOURCE TRACES
#
# The report of part K of N goes to FOLDER/K.report. K has zeros in front, so that the files sort by
# name. A report that exists already is kept: after a run that failed in some parts, run it again,
# and it judges those parts alone. The status is 0 if the part has a report, whatever its verdicts.
# Else it is the status of lbench, and FOLDER/K.refused has what lbench printed; or 3 where the report
# cannot be written. LBENCH names the program.
set -u
folder=$1 number=$2 count=$3
shift 3
name=$(printf '%s/%05d' "$folder" "$number")
[ -f "$name.report" ] && exit 0
mkdir -p "$folder"
"${LBENCH:-lbench}" --explain --part "$number/$count" "$@" >"$name.part" 2>"$name.refused"
status=$?
# Without the file nothing was run: some shells then answer 1, which is a verdict of lbench.
[ -f "$name.part" ] || status=3
if [ $status -gt 1 ]; then
    [ -f "$name.refused" ] && cat "$name.refused" >&2
    rm -f "$name.part"
    exit $status
fi
rm -f "$name.refused"
mv "$name.part" "$name.report"
