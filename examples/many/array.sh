#!/bin/sh
#SBATCH --array=1-3
# One job of jobs.txt, by its line: sbatch array.sh, or SLURM_ARRAY_TASK_ID=2 sh array.sh.
job=$(sed -n "${SLURM_ARRAY_TASK_ID}p" jobs.txt)
exec "${ARGUS:-../../argus}" run "$job.job" >"$job.said"
