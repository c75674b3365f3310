#!/bin/sh
# Judges a trace file in parts with GNU parallel, JOBS parts at a time, and joins the reports.
#
#     scale/parallel.sh FOLDER N JOBS [OPTION ..] SOURCE TRACES
#
# JOBS is what `parallel --jobs` takes. A part that fails is tried twice more. For several machines
# set HOSTS to what `parallel --sshlogin` takes, as HOSTS=16/rack1,16/rack2. The machines must have
# the program and these files under the same paths, or on a shared disk. LBENCH names the program.
set -u
here=$(cd "$(dirname "$0")" && pwd)
folder=$1 count=$2 jobs=$3
shift 3
mkdir -p "$folder"
export LBENCH
LBENCH=$(command -v "${LBENCH:-lbench}")
seq "$count" | parallel ${HOSTS:+--sshlogin "$HOSTS"} --env LBENCH --workdir "$PWD" \
    --jobs "$jobs" --retries 3 --joblog "$folder/jobs.log" --quote \
    "$here/part.sh" "$folder" {} "$count" "$@" || exit 3
"$here/merge.sh" "$folder" "$count"
