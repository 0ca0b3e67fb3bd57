#!/bin/sh
# An array job for the queue Slurm: sbatch examples/batch/array-job.sh PROBLEMS ANSWERS
# Each task runs one part of the folder; all write into the same ANSWERS. When all have ended, call
# tools/batch.py PROBLEMS ANSWERS once: it runs what has no answer, checks the certificates and writes the summary.
# Submit it at the top of the tree, with both programs built. Sent again, it does only what is left. More tasks, or fewer: sbatch --array=1-N.
#SBATCH --job-name=knot
#SBATCH --array=1-16
#SBATCH --cpus-per-task=4
#SBATCH --mem-per-cpu=500M
#SBATCH --time=08:00:00
#SBATCH --output=knot-%A-%a.log
#SBATCH --open-mode=append
set -u

# The number of parts is that of the array's tasks. Where only some of them are sent again, or another queue has no such number, it is the
# third word. Other queues have other names for that of the task: in PBS it is PBS_ARRAY_INDEX, in Grid Engine SGE_TASK_ID.
task=${SLURM_ARRAY_TASK_ID:-} parts=${3:-${SLURM_ARRAY_TASK_COUNT:-}}
if [ $# -lt 2 ] || [ $# -gt 3 ] || [ -z "$task" ] || [ -z "$parts" ]; then
    echo 'usage: sbatch [--array=1-N] examples/batch/array-job.sh PROBLEMS ANSWERS [PARTS]' >&2
    exit 2
fi
if [ $# -eq 2 ] && [ "${SLURM_ARRAY_TASK_MIN:-1}/${SLURM_ARRAY_TASK_MAX:-$parts}" != "1/$parts" ]; then
    echo "array-job.sh: the array has no tasks 1 to N: say how many parts there are, as the third word" >&2
    exit 2
fi
exec tools/batch.py --processes "${SLURM_CPUS_PER_TASK:-4}" --part "$task/$parts" "$1" "$2"
