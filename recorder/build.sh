#!/usr/bin/env bash
# Builds the recorder into a folder, as a static program `record`.
#
#     recorder/build.sh [--sanitize] [--strip] [--by-helper] [--machine MACHINE] FOLDER
#
# With --sanitize the program is dynamic, and runs under the address and undefined-behaviour sanitizers, which end it at
# a fault. With --strip it has no symbols. With --by-helper there is also `by_helper.bpf.o`, for a check: the programs for
# newer kernels, as they are verified with the BTF of another kernel (task.bpf.h). MACHINE is x86_64 or aarch64; by default it is this machine. CC names the
# compiler; by default it is gcc, and for another machine the one of Debian, or for arm64 what CC_FOR_ARM64 names.
# packager/needs says what else the build needs.
set -euo pipefail

here=$(dirname -- "$(readlink -f -- "${BASH_SOURCE[0]}")")
link=(-static)
flags=(-O2)
machine='' by_helper=''
while [[ ${1:-} == --* ]]; do
  case $1 in
    --sanitize)
      link=("-fsanitize=address,undefined")
      flags=(-O1 -g -fno-omit-frame-pointer "-fsanitize=address,undefined" -fno-sanitize-recover=all)
      ;;
    --strip) link+=(-s) ;;
    --by-helper) by_helper=1 ;;
    --machine)
      machine=${2:?--machine takes a name}
      shift
      ;;
    *) printf 'record: build.sh has no option %s\n' "$1" >&2; exit 1 ;;
  esac
  shift
done
folder=${1:?usage: recorder/build.sh [--sanitize] [--strip] [--by-helper] [--machine MACHINE] FOLDER}
mkdir -p -- "$folder"
folder=$(readlink -f -- "$folder")
# shellcheck source=recorder/machine.sh
source "$here/machine.sh"

sources=()
for source in "$here"/*.c; do
  if [[ $source != *.bpf.c ]]; then sources+=("$source"); fi
done

# The names of files in the programs do not depend on the folder of the sources.
compile_programs() { # NAME OPTION..: those for the kernel, and their skeleton
  (cd -- "$here" && clang -O2 -g -fdebug-compilation-dir=. -target bpf -mcpu=v3 "-D__TARGET_ARCH_$target" \
    "-I/usr/include/$machine-linux-gnu" "-I/usr/$machine-linux-gnu/include" -Wall -Werror "${@:2}" \
    -c record.bpf.c -o "$folder/$1.bpf.o")
  bpftool gen skeleton "$folder/$1.bpf.o" name "$1" >"$folder/$1.skel.h"
}

variables_of() { # NAME
  sed -n "s/struct $1__/struct /; /^\tstruct [a-z]* {/,/^\t}/p" "$folder/$1.skel.h"
}

compile_programs record
compile_programs older -DOLDER_KERNELS
if [[ -n $by_helper ]]; then compile_programs by_helper -DREADS_BY_HELPER; fi
"$here/../commands/as_c.py" >"$folder/option_names.h"
# One skeleton opens both (kernel.c).
if [[ $(variables_of record) != "$(variables_of older)" ]]; then
  printf 'record: the programs for older kernels have other variables\n' >&2 && exit 1
fi
"$compiler" "${flags[@]}" -std=gnu11 -Wall -Wextra -Werror "-I$here" -isystem "$folder" "${sources[@]}" \
  -o "$folder/record.new" "${link[@]}" -lbpf -lelf -lz -lb2 2>"$folder/errors" ||
  { cat -- "$folder/errors" >&2; exit 1; }
mv -- "$folder/record.new" "$folder/record"
