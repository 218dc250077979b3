#!/bin/bash
#SBATCH --job-name=sort-sweep
#SBATCH --array=1-8
#SBATCH --cpus-per-task=4
#SBATCH --time=00:30:00
# One part of a sweep for each task of a job array; run from the top of the repository. A task that is
# started again goes on with what its table has.
set -eu
read -r -d '' -a settings <examples/cluster/settings || true
python3 -m neqysbar.sweep "${settings[@]}" --jobs "${SLURM_CPUS_PER_TASK:-1}" \
    --part "$SLURM_ARRAY_TASK_ID/$SLURM_ARRAY_TASK_COUNT" --output "sort-part-$SLURM_ARRAY_TASK_ID.csv"
