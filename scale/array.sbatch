#!/bin/sh
# One part of a trace file, as a task of a Slurm array:
#
#     sbatch --array=1-16 scale/array.sbatch FOLDER 16 [OPTION ..] SOURCE TRACES
#
# FOLDER, SOURCE and TRACES are on a disk that all machines see. When the array is done,
# `scale/merge.sh FOLDER 16` joins the reports; where a part is missing it says so, and
# `sbatch --array=NUMBER ..` repeats that part alone.
#SBATCH --job-name=lbench
#SBATCH --output=/dev/null
#SBATCH --ntasks=1
folder=$1 count=$2
shift 2
exec "$SLURM_SUBMIT_DIR/scale/part.sh" "$folder" "$SLURM_ARRAY_TASK_ID" "$count" "$@"
