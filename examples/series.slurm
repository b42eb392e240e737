#!/bin/sh
#SBATCH --job-name=mapf
#SBATCH --array=1-100
#SBATCH --cpus-per-task=1
#SBATCH --mem=4G
#SBATCH --time=12:00:00
# A job array of the commands that `python3 -m mapf series --list` printed: task N runs every 100th of them, from the Nth on.
# usage: sbatch examples/series.slurm COMMANDS     again for what was stopped or failed, as --array=7,31 for these tasks alone
tasks=100
failed=0
number=0
while IFS= read -r command; do
    number=$((number + 1))
    if [ $((number % tasks)) = $((SLURM_ARRAY_TASK_ID % tasks)) ]; then
        sh -c "$command" </dev/null || failed=1
    fi
done <"$1"
exit "$failed"
