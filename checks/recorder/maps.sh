#!/usr/bin/env bash
# Checks what the recorder's loader does with stacks (`./record --stacks`).
#
#     checks/run maps
#
# It builds the parts of the recorder that need no kernel, with the address and undefined-behaviour sanitizers, and
# gives them messages as from the ring. What must hold:
#
# - The same stack of a process is told once, with the files that its addresses are in; each call has a line.
# - Of a process that began at another time, or is not there, nothing is read, and a line says so.
# - Ever new stacks take bounded memory. A new side list has the stacks anew that its calls have.
# - A damaged ELF file has a build-id or none, and nothing is read beyond its end.
set -euo pipefail

here=$(dirname -- "$(readlink -f -- "${BASH_SOURCE[0]}")")
room=$(mktemp -d -t checks-maps.XXXXXX)
trap 'rm -rf -- "$room"' EXIT
"$here/build.sh" --sanitize maps "$room" -Wl,--build-id
"$room/maps" "$room/out"
