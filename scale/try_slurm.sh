#!/bin/bash
# Tries the recipe for Slurm on this machine alone. It installs Debian's slurmctld, slurmd, slurm-client and
# munge if they are missing, and runs munged, slurmctld and slurmd with a configuration in a folder of its own.
# Then it judges a text in 16 parts by an array, of which one part fails, repeats that part, and
# joins the reports. It needs root.
#
#     LBENCH=crates/lbench/out/lbench scale/try_slurm.sh [BYTES [SHOULD]]
#
# SHOULD is a file: the merged report has to be equal to it, byte for byte. Without SHOULD the text
# must be small enough for one run, and the merged report has to be the report of that run. The
# script ends the processes that it started.
set -eu
here=$(cd "$(dirname "$0")" && pwd)
LBENCH=$(realpath "${LBENCH:-$(command -v lbench)}")
export LBENCH
bytes=${1:-20000000}
should=${2:-}
command -v slurmctld slurmd munged >/dev/null ||
    apt-get install -y --no-install-recommends slurmctld slurmd slurm-client munge >/dev/null
work=$(mktemp -d)
chmod 755 "$work"
started=()
finish() {
    for process in "${started[@]}"; do kill "$process" 2>/dev/null || :; done
    wait
    rm -rf "$work"
}
trap finish EXIT

mkdir -p "$work/munge" "$work/state" "$work/spool"
dd if=/dev/urandom of="$work/munge/key" bs=1024 count=1 status=none
chmod 600 "$work/munge/key"
chmod 755 "$work/munge"
munged --force --key-file="$work/munge/key" --socket="$work/munge/socket" \
    --pid-file="$work/munge/pid" --log-file="$work/munge/log" --seed-file="$work/munge/seed" \
    --foreground >"$work/munge/out" 2>&1 &
started+=($!)
host=$(hostname -s)
cat >"$work/slurm.conf" <<END
ClusterName=bench
SlurmctldHost=$host(127.0.0.1)
SlurmUser=root
AuthType=auth/munge
AuthInfo=socket=$work/munge/socket
CredType=cred/munge
SlurmctldPort=16817
SlurmdPort=16818
StateSaveLocation=$work/state
SlurmdSpoolDir=$work/spool
SlurmctldPidFile=$work/slurmctld.pid
SlurmdPidFile=$work/slurmd.pid
SlurmctldLogFile=$work/slurmctld.log
SlurmdLogFile=$work/slurmd.log
ProctrackType=proctrack/linuxproc
TaskPlugin=task/none
SelectType=select/cons_tres
SelectTypeParameters=CR_CPU
ReturnToService=2
MpiDefault=none
NodeName=$host NodeAddr=127.0.0.1 CPUs=$(nproc) State=UNKNOWN
PartitionName=all Nodes=$host Default=YES MaxTime=INFINITE State=UP
END
export SLURM_CONF=$work/slurm.conf
sleep 1
slurmctld -D -f "$SLURM_CONF" >"$work/slurmctld.out" 2>&1 &
started+=($!)
sleep 2
slurmd -D -f "$SLURM_CONF" -N "$host" >"$work/slurmd.out" 2>&1 &
started+=($!)
for _ in $(seq 60); do
    sinfo --noheader --format=%t 2>/dev/null | grep -q idle && break
    sleep 1
done
sinfo

"$here/make_traces.sh" "$bytes" >"$work/traces.csv"
ls -l "$work/traces.csv" | awk '{ print $5 " bytes of traces" }'
cd "$here/.."
# Part 11 cannot be written the first time: a directory stands in the place of its report.
mkdir -p "$work/parts/00011.part"
sbatch --wait --array=1-16 --export=ALL scale/array.sbatch "$work/parts" 16 scale/valve.lus \
    "$work/traces.csv" || echo "a task of the array failed"
lost=0
scale/merge.sh "$work/parts" 16 >"$work/merged" || lost=$?
[ "$lost" -eq 3 ]
rmdir "$work/parts/00011.part"
sbatch --wait --array=11 --export=ALL scale/array.sbatch "$work/parts" 16 scale/valve.lus \
    "$work/traces.csv"
merged=0
scale/merge.sh "$work/parts" 16 >"$work/merged" || merged=$?
if [ -z "$should" ]; then
    should=$work/whole
    "$LBENCH" scale/valve.lus "$work/traces.csv" >"$should" || :
fi
cmp "$should" "$work/merged"
echo "16 parts by an array: the report of the whole, status $merged"
tail -n 1 "$work/merged"
