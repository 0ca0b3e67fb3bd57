#!/bin/sh
# An array job for the queue Slurm, a task a piece. Submit it at the top of the tree, with the program built:
#   sbatch --array="$(tools/pieces.py left RUN)%200" examples/pieces/array-job.sh RUN
# When no task waits or runs, send what is left in the same way, until nothing is. At most 200 tasks run at once.
# Other queues name the task by another variable: PBS by PBS_ARRAY_INDEX, Grid Engine by SGE_TASK_ID.
#SBATCH --job-name=pieces
#SBATCH --cpus-per-task=1
#SBATCH --mem-per-cpu=500M
#SBATCH --time=04:00:00
#SBATCH --requeue
#SBATCH --open-mode=append
#SBATCH --output=pieces-%A-%a.log
set -u

if [ $# -ne 1 ]; then
    echo 'usage: sbatch --array="$(tools/pieces.py left RUN)%200" examples/pieces/array-job.sh RUN' >&2
    exit 2
fi
# The script takes the place of the shell, so that it gets the signal by which the queue ends a task.
exec tools/pieces.py run --processes "${SLURM_CPUS_PER_TASK:-1}" "$1" "$SLURM_ARRAY_TASK_ID"
