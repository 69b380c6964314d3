#!/bin/bash
#SBATCH --job-name=tp-part
#SBATCH --cpus-per-task=4
#SBATCH --mem=8G
#SBATCH --time=24:00:00
#SBATCH --requeue
# Builds one part: Slurm gives each task of the array its number. FEED, DATE and STORES come from slurm.sh.
tp build --feed "$FEED" --date "$DATE" --part "$SLURM_ARRAY_TASK_ID/$PARTS" \
    --store "$STORES/part-$SLURM_ARRAY_TASK_ID.store" --workers "${SLURM_CPUS_PER_TASK:-2}"
# Status 3 names stops that no build can store; the merge names them once more.
status=$?
[ "$status" = 3 ] || exit "$status"
