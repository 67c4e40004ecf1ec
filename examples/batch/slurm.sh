#!/bin/sh
# sbatch --array=0-15 slurm.sh packs the texts, one each job, in whatever order; jobs may run twice, and be repeated.
#   packs=$(sbatch --parsable --array=0-15 slurm.sh)
#   sbatch --dependency=afterok:$packs slurm.sh last
# The last job packs all of them into one and prints the report. Out of Slurm: SLURM_ARRAY_TASK_ID=3 ./slurm.sh
#SBATCH --job-name=mpimatch
#SBATCH --ntasks=1
#SBATCH --requeue
set -eu
cd "${SLURM_SUBMIT_DIR:-$(dirname "$0")}"
mkdir -p "${OUT:=out}"
if [ "${1:-}" = last ]; then
    ./pack.sh "$OUT/all.know" "$OUT"/r?-?.know
    echo "{\"pieces\":[{\"packed\":\"$OUT/all.know\"}]}" >"$OUT/all.json"
    exec "${MPIMATCH:-../../mpimatch}" report layout.json "$OUT/all.json"
fi
text=$(ls r?-?.txt | sed -n "$((SLURM_ARRAY_TASK_ID + 1))p")
./pack.sh "$OUT/${text%.txt}.know" "$text"
