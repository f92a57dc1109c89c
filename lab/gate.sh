#!/usr/bin/env bash
# Compares builds of a lab as a gate in CI, and writes LAB/gate.xml as JUnit does.
#
#     gate.sh LAB [OLD.. NEW] [-- OPTION..]
#
# Without builds the last one is compared with the two before it. OPTIONS are those of `fleet compare`, after `--usable
# 50 --fail-on grown:4`, and files known.txt, renamed.txt and order.txt of LAB, if they are there. The status is that of `fleet compare`.
set -euo pipefail
here=$(cd -- "${BASH_SOURCE[0]%/*}" && pwd)
lab=$1 builds=() words=(--usable 50 --fail-on grown:4 --junit "$1/gate.xml") order=()
shift
while (($#)) && [[ $1 != -- ]]; do builds+=("$1") && shift; done
for file in known renamed order; do
  if [[ -e $lab/$file.txt ]]; then words+=("--$file" "$lab/$file.txt"); fi
done
if [[ -e $lab/order.txt ]]; then order=(--order "$lab/order.txt"); fi
if ((${#builds[@]} == 0)); then
  # Of the last build perhaps no capture counts, which then is what fails.
  mapfile -t builds < <("$here/../fleet" ask "$lab/LAB.db" "SELECT name FROM (SELECT name, number FROM build
    WHERE number = (SELECT max(number) FROM build)
      OR name IN (SELECT build FROM capture WHERE malformed IS NULL AND failed IS NULL)
    ORDER BY number DESC LIMIT 3) ORDER BY number" "${order[@]}" | tail -n +2)
fi
if ((${#builds[@]} < 2)); then
  echo "fleet: the lab has no two builds to compare" >&2
  exit 0
fi
"$here/../fleet" compare "$lab/LAB.db" "${builds[@]}" "${words[@]}" "${@:2}"
