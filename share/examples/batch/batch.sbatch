#!/bin/bash
# Grades a file of positions by an array of Slurm's tasks, each its part of the lines:
#
#     sbatch --array=0-15 batch.sbatch positions.txt graded --depth 6
#     cat graded/*.jsonl > graded.jsonl    # once all are done; in the order of the file
#
# All nodes see the file and the folder `graded`, and have grade.py at the path GRADE. A task that is cut off, or is
# started anew by Slurm, goes on behind the last position that it had written.
#SBATCH --job-name=shogi
#SBATCH --cpus-per-task=1
#SBATCH --mem=512M
#SBATCH --requeue
#SBATCH --open-mode=append
set -euo pipefail
positions=$1 folder=$2
shift 2
grade=${GRADE:-/usr/local/share/doc/usi_host/examples/grade.py}
number=$((SLURM_ARRAY_TASK_ID - SLURM_ARRAY_TASK_MIN))
mkdir -p "$folder"
part=$folder/$(printf '%06d' "$number")
split -n "l/$((number + 1))/$SLURM_ARRAY_TASK_COUNT" "$positions" >"$part.txt"
status=0
"$grade" --jobs "${SLURM_CPUS_PER_TASK:-1}" --format jsonl "$@" --resume "$part.jsonl" "$part.txt" || status=$?
# 1: a position was refused, which its line says.
[ "$status" -le 1 ]
