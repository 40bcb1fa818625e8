#!/bin/bash
# Grades a file of positions by GNU parallel, in blocks of 1,000 lines, on this machine or on several:
#
#     batch_parallel.sh positions.txt graded --depth 6 > graded.jsonl
#     PARALLEL='--sshlogin 16/one,16/two --wd .' batch_parallel.sh positions.txt graded --depth 6 > graded.jsonl
#
# The blocks and their grades are files in the folder `graded`. The output is in the order of the file, and comes once all
# is done. A block whose job is killed is graded by another one, three times at most. A run that was cut off is gone on
# with by the same line. PARALLEL has further options of parallel; so `16/one` is 16 jobs on the machine `one`, which sees
# the same folder and has grade.py at the same path, or at the path GRADE. What a job said is in the file NUMBER.told.
set -euo pipefail
positions=$1 folder=$2
shift 2
grade=${GRADE:-$(realpath "$(dirname "$0")/../grade.py")}
mkdir -p "$folder"
split -l "${BLOCK:-1000}" -d -a 6 "$positions" "$folder/"
# A job's status 1 says that a position was refused, which its line says too.
printf '%s\n' "$folder"/?????? | parallel --will-cite --joblog "$folder/log" --resume-failed --retries 3 --halt soon,fail=1 \
    "$(printf '%q ' "$grade" --jobs 1 --format jsonl "$@") --resume {}.jsonl {} 2>{}.told || [ \$? -eq 1 ]"
cat "$folder"/??????.jsonl
