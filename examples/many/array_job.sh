#!/usr/bin/env bash
#SBATCH --job-name=decl
#SBATCH --array=0-19
#SBATCH --cpus-per-task=1
#SBATCH --time=01:00:00
# An array job of 20 tasks: task t evaluates each program whose place in the folder leaves the rest t. A program whose text,
# as it is now, has rows is left out, so the same job can be handed in again for what is missing:
#   sbatch array_job.sh FOLDER OUT WORD..
# Status 1 where a program of the task failed.
# Other schedulers name the number of the task otherwise, and it can be tried by hand:
#   SLURM_ARRAY_TASK_ID=0 SLURM_ARRAY_TASK_COUNT=1 examples/many/array_job.sh FOLDER OUT mean
set -u
if [ $# -lt 3 ] || [ -z "${SLURM_ARRAY_TASK_ID:-}" ] || [ -z "${SLURM_ARRAY_TASK_COUNT:-}" ]; then
    echo "usage: array_job.sh FOLDER OUT WORD.., with SLURM_ARRAY_TASK_ID and SLURM_ARRAY_TASK_COUNT" >&2
    exit 2
fi
folder=$1
out=$2
shift 2
here=${DECL_MANY:-$(cd "$(dirname "$0")" && pwd)}
. "$here/kept.sh" || exit 1
"$here/keep_words" "$out" "$@" || exit
place=0
status=0
while IFS= read -r -d '' name; do
    if [ $((place++ % SLURM_ARRAY_TASK_COUNT)) -eq "$SLURM_ARRAY_TASK_ID" ] && ! has_rows "$folder" "$out" "$name"; then
        "$here/one" "$folder" "$out" "$name" "$@" || status=1
    fi
done < <("$here/programs" "$folder")
exit "$status"
