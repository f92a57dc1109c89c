#!/usr/bin/env bash
# Checks that the recorder compiles for x86-64 and for arm64, its programs for the kernel too; that the program runs; and
# that the verifier of this machine's kernel passes the programs for the kernel, those for older kernels too. It verifies
# them with the places of fields of this kernel, and of each kernel whose BTF is in systems/: a field that one of them
# calls differently is refused. For the other kernels those for newer ones are compiled with READS_BY_HELPER. What an older verifier refuses is seen on older kernels only: `checks/run driver`.
# So does cost/opens.c, which runs some of these programs, but is played by hand only.
#
#     checks/run compiled
#
# What is missing for arm64, and a kernel that lets nobody ask its verifier, are said in a line, and are no failure. If
# something is wrong it prints what the compiler or the verifier says, and ends with status 1.
set -euo pipefail

here=$(dirname -- "$(readlink -f -- "${BASH_SOURCE[0]}")")
root=${here%/*/*}
room=$(mktemp -d -t checks-compiled.XXXXXX)
trap 'rm -rf -- "$room"' EXIT
status=0 untried=()

verify() { # PROGRAMS [BTF]
  local said=0
  "$room/verified" "$@" >"$room/said" 2>&1 || said=$?
  case $said in
  0) if [[ -s $room/said ]]; then untried+=("$(<"$room/said")"); fi ;;
  3) untried+=('this kernel has no BTF, or lets nobody load programs here: its verifier was not asked') ;;
  *) printf 'checks/compiled: %s:\n%s\n' "${*#"$root/"}" "$(<"$room/said")" && status=1 ;;
  esac
}

programs_of() { # SYSTEM: those that its kernel gets
  if [[ $(printf '5.17\n%s\n' "$(<"$1/release")" | sort -V | head -n 1) == 5.17 ]]; then
    printf by_helper
  else
    printf older
  fi
}

compile() { # MACHINE
  "$root/recorder/build.sh" --by-helper --machine "$1" "$room/$1" || status=1
}

machines=("$(uname -m)")
for machine in x86_64 aarch64; do
  if [[ $machine == "${machines[0]}" ]]; then continue; fi
  if missing=$("$root/packager/needs" --as "not compiled for $machine" --machine "$machine" recorder 2>&1); then
    machines+=("$machine")
  else
    printf '%s\n' "$missing"
  fi
done
for machine in "${machines[@]}"; do compile "$machine" & done
gcc -O1 -std=gnu11 -Wall -Wextra -Werror "$here/verified.c" -o "$room/verified" -lbpf
wait
for machine in "${machines[@]}"; do
  if [[ ! -x $room/$machine/record ]]; then status=1 && continue; fi
  for system in "$here"/systems/*-"$machine"; do
    verify "$room/$machine/$(programs_of "$system").bpf.o" "$system/sys/kernel/btf/vmlinux"
  done
done
if [[ -x $room/${machines[0]}/record ]]; then
  "$room/${machines[0]}/record" --help >"$room/help"
  for programs in record older; do verify "$room/${machines[0]}/$programs.bpf.o"; done
  gcc -std=gnu11 -Wall -Wextra -Werror -fsyntax-only "-I$root/recorder" "-I$here/scenarios" \
    -isystem "$room/${machines[0]}" "$here/cost/opens.c" || status=1
fi
if ((${#untried[@]})); then printf '%s\n' "${untried[@]}" | sort -u; fi
exit "$status"
