#!/usr/bin/env bash
# Builds a program of these checks with what it needs of the recorder's loader. What the program defines itself, it has
# in place of that.
#
#     build.sh [--sanitize|--fuzz] PROGRAM FOLDER [OPTION]..
#
# PROGRAM is the name of its source here, without `.c`. The OPTIONs are for the compiler. With --sanitize the program
# runs under the address and undefined-behaviour sanitizers, which end it at a fault; with --fuzz also under clang's
# libFuzzer, with FUZZED defined. What several programs in a FOLDER need of the loader is built once, so all of them are
# built in one of these ways.
set -euo pipefail

here=$(dirname -- "$(readlink -f -- "${BASH_SOURCE[0]}")")
recorder=$here/../../recorder
flags=(-O1 -std=gnu11 -Wall -Wextra -Werror "-I$recorder") compiler=cc last=()
case $1 in
--sanitize) flags+=(-g "-fsanitize=address,undefined" -fno-sanitize-recover=all) && shift ;;
--fuzz)
  compiler=clang last=("-fsanitize=fuzzer")
  flags+=(-g "-fsanitize=address,undefined,fuzzer-no-link" -fno-sanitize-recover=all -DFUZZED)
  flags+=(-Wno-unused-command-line-argument) && shift		# of the linker, when only objects are made
  ;;
esac
program=$1 folder=$(readlink -f -- "$2")
flags+=("-isystem$folder" "${@:3}")

# Only these are about the programs in the kernel, which are not built here.
sources=("$here"/{kit,made_frame,made_proc,played,scene}.c)
for source in "$recorder"/*.c; do
  if [[ $source != *.bpf.c && $source != */kernel.c ]]; then sources+=("$source"); fi
done
if [[ ! -e $folder/loader.a ]]; then
  "$recorder/../commands/as_c.py" >"$folder/option_names.h"
  objects=$(mktemp -d -- "$folder/objects.XXXXXX")
  (cd -- "$objects" && "$compiler" "${flags[@]}" -c "${sources[@]}" && ar rc "$folder/loader.a" ./*.o)
fi
programs=("$here/$program.c")
# In an archive it would come beside what it is in place of.
if grep -q '"made_driver.h"' "${programs[0]}"; then programs+=("$here/made_driver.c"); fi
"$compiler" "${flags[@]}" "${last[@]}" "${programs[@]}" "$folder/loader.a" -o "$folder/$program" -lb2
