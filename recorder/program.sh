#!/usr/bin/env bash
# Prints where the recorder for a machine is. Builds it first if it is not built yet, or a source is newer.
#
#     recorder/program.sh [MACHINE]
#
# MACHINE is x86_64 or aarch64; by default it is this machine. The program is in recorder/out, and that for another
# machine in a folder of its name there. If a tool is missing, a line names it and the command that installs it, and the
# status is 1. A package has both programs in lib/binder-audit, and no sources: there nothing is built.
set -euo pipefail

here=$(dirname -- "$(readlink -f -- "${BASH_SOURCE[0]}")")
machine=${1:-}
# shellcheck source=recorder/machine.sh
source "$here/machine.sh"
other=
if [[ $machine != "$own" ]]; then other=$machine; fi
folder=$here/out${other:+/$other}
program=$folder/record

is_fresh() {
  [[ -x $program && -z $(find "$here" "$here/../commands" -maxdepth 1 -newer "$program" \
    \( -path "$here" -o -name '*.[ch]' -o -name '*.py' -o -name build.sh \) -print -quit) ]]
}

# The owner of the folder, if that is another user. Root builds nothing there: the owner could change what root runs.
stranger() {
  local path
  for path in "$here" "$here/out" "$folder"; do
    if [[ -e $path && $(stat -c %u -- "$path") != "$EUID" ]]; then stat -c %U -- "$path" && return; fi
  done
}

build() {
  local owner
  owner=$(stranger)
  if ((EUID == 0)) && [[ -n $owner ]]; then
    printf 'record: root builds nothing in a folder of the user %s, who can build the recorder with %s\n' "$owner" \
      "recorder/program.sh${other:+ $other}" >&2
    return 1
  fi
  "$here/../packager/needs" --as record --machine "$machine" recorder || return 1
  if ! "$here/build.sh" --machine "$machine" "$folder"; then
    printf 'record: the recorder could not be built\n' >&2
    return 1
  fi
}

if [[ ! -e $here/build.sh ]]; then
  program=${here%/share/binder-audit/recorder}/lib/binder-audit/record${other:+-$other}
elif ! is_fresh; then
  build || exit 1
fi
printf '%s\n' "$program"
