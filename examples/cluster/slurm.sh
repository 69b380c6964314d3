#!/bin/bash
# Builds a store on a cluster with Slurm: a job array with a task for each part, and a job that merges the parts after all have ended well.
#
#     slurm.sh PARTS FEED DATE STORES
#
# FEED and the folder STORES lie on a file system that all nodes see, and `tp` is on the PATH of each.
set -eu
export PARTS=$1 FEED=$2 DATE=$3 STORES=$4
here=$(dirname "$(readlink -f "$0")")
array=$(sbatch --parsable --array="0-$((PARTS - 1))" --output="$STORES/part-%a.log" "$here/part.sbatch")
merge=$(sbatch --parsable --dependency="afterok:$array" --kill-on-invalid-dep=yes --output="$STORES/merge.log" "$here/merge.sbatch")
echo "parts $array merge $merge"
