#!/bin/sh
#SBATCH --cpus-per-task=4
#SBATCH --time=02:00:00
# A part of an exploration of a broker, which stands with policy.json and script.txt in the folder of the job:
#
#   parts=$(sbatch --parsable --array=1-28 explore.sbatch)
#   sbatch --dependency=afterany:$parts --wrap 'seccomp-broker merge -o explored.json part-*.json'
part=$SLURM_ARRAY_TASK_ID
seccomp-broker explore-broker policy.json script.txt 3 --shard "$part/$SLURM_ARRAY_TASK_COUNT" --jobs "${SLURM_CPUS_PER_TASK:-1}" --json -- python3 broker.py >"part-$part.part"
status=$?
# (an interrupted part has its result too, which merge names)
mv "part-$part.part" "part-$part.json"
# a part that found something was made all the same
[ "$status" -eq 11 ] || exit "$status"
