#!/bin/sh
# again.sh: jobs that run twice, are lost and are repeated make the same report as one run over all texts. Ends with 0
# if so.
set -eu
cd "$(dirname "$0")"
mpimatch=${MPIMATCH:-../../mpimatch}
OUT=$(mktemp -d ./again.XXXXXX)
export OUT
trap 'rm -rf "$OUT"' EXIT

"$mpimatch" report layout.json manifest.json >"$OUT/one.txt"
job() {
    SLURM_ARRAY_TASK_ID=$1 ./slurm.sh
}
# the jobs end from the last to the first, and job 9 runs twice
for number in 15 14 13 12 11 10 9 8 7 6 5 9 4 3 2 1 0; do
    job "$number"
done
# job 6 is lost: what it had written so far is refused where its bytes end, and the job is repeated
head -c 100 "$OUT/r3-0.know" >"$OUT/cut"
echo "{\"pieces\":[{\"packed\":\"$OUT/cut\"}]}" >"$OUT/cut.json"
if "$mpimatch" report layout.json "$OUT/cut.json" 2>"$OUT/line"; then
    echo "again.sh: a pack that was cut off was read" >&2
    exit 1
fi
grep -q "W5 Short at frame 0 of $OUT/cut" "$OUT/line"
rm "$OUT/r3-0.know"
job 6
./slurm.sh last >"$OUT/packed.txt"
cmp "$OUT/one.txt" "$OUT/packed.txt"
# one pack comes twice, in two files, beside one that has it already
cp "$OUT/r0-0.know" "$OUT/r8-0.know"
./pack.sh "$OUT/twice.know" "$OUT/all.know" "$OUT"/r?-?.know
cmp "$OUT/all.know" "$OUT/twice.know"
echo "the same report"
