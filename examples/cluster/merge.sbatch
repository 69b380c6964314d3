#!/bin/bash
#SBATCH --job-name=tp-merge
#SBATCH --mem=8G
#SBATCH --time=12:00:00
# Puts the parts together in one store. FEED, DATE, STORES and PARTS come from slurm.sh.
parts=()
for ((number = 0; number < PARTS; number++)); do
    parts+=("$STORES/part-$number.store")
done
tp merge --feed "$FEED" --date "$DATE" --store "$STORES/all.store" "${parts[@]}"
