#!/usr/bin/env bash
# Makes the results of a lab by Slurm, and loads them into LAB.db, a file of the lab.
#
#     slurm.sh LAB [TASK] [-- OPTION..]
#
# LAB and this folder are at the same path on all nodes. A task of the array does TASK sessions one after another;
# without TASK as many as take a minute, as the first session here tells. OPTIONs are for sbatch, such as --partition. A
# task that is killed, or whose node is lost, leaves sessions without a result: they are submitted again, up to three
# times while that helps. Status 1: some still have none, or sessions.py refused their names.
set -euo pipefail

# One task, by Slurm, which runs a copy of this file: the sessions of its part of the list.
if [[ -n ${SLURM_ARRAY_TASK_ID-} ]]; then
  lab=$1 task=$2 here=$3
  sed -n "$(((SLURM_ARRAY_TASK_ID - 1) * task + 1)),$((SLURM_ARRAY_TASK_ID * task))p" "$lab/results/.progress/left" |
    while read -r session; do
      # A task that began again finds results of its own.
      if [[ ! $lab/results/$session.json -nt $lab/results/.progress/left ]]; then printf '%s\n' "$session"; fi
    done | "$here/many.py" -- "$lab" || :
  exit
fi

here=$(cd -- "${BASH_SOURCE[0]%/*}" && pwd)
lab=$(readlink -f -- "$1") && shift
task= options=()
if [[ ${1-} =~ ^[0-9]+$ ]]; then task=$1 && shift; fi
if [[ ${1-} == -- ]]; then options=("${@:2}"); fi
progress=$lab/results/.progress

list_left() { "$here/sessions.py" --left -- "$lab" >"$progress/left" && wc -l <"$progress/left"; }

mkdir -p "$progress"
refused=0
"$here/sessions.py" --refused -- "$lab" || refused=1
left=$(list_left)
if [[ -z $task ]] && ((left)); then
  begun=${EPOCHREALTIME/./}
  head -n 1 "$progress/left" | "$here/many.py" -- "$lab" || :
  task=$((60000000 / (${EPOCHREALTIME/./} - begun) + 1))
  left=$(list_left)
fi
for round in 1 2 3; do
  ((left)) || break
  rm -f "$progress/done" "$progress/failed"
  echo "$left" >"$progress/total"
  printf 'fleet: %d sessions in %d tasks, round %d\n' "$left" "$(((left + task - 1) / task))" "$round" >&2
  # The status of a task says nothing: results do. In the name of the log, sbatch reads one % as a field.
  sbatch --wait --requeue --quiet --job-name=fleet --output="${progress//%/%%}/%a.log" --open-mode=append \
    --array="1-$(((left + task - 1) / task))" "${options[@]}" "$here/slurm.sh" "$lab" "$task" "$here" || :
  before=$left
  left=$(list_left)
  ((left < before)) || break
done
"$here/../fleet" load "$lab/LAB.db" "$lab/results"
if ((left)); then LC_ALL=C printf 'fleet: %d sessions have no result: %q/left\n' "$left" "$progress" >&2; fi
((left == 0 && refused == 0))
