#!/usr/bin/env bash
# Checks what the recorder's programs in the kernel copy in which run, and measures how long they keep their processor
# at the most.
#
#     checks/run copying [-- ROUNDS]
#
# It loads them into the kernel of this machine, which needs no Binder driver, and runs those parts that copy, on memory
# that it made. A write is played whose data is partly not there, or too much for one run: all of it must come. Reads
# with large attachments fill the ring: their own bytes must come. A command line that is away for some time must come
# only if it is another one afterwards. A process that opens very much must have its share of the openings, and no more.
# The stack of a call must have its functions. Numbers that four threads take at once must each be given once, and none
# left out, also after the loader has made no room for more. It does all this with the programs for newer kernels, and
# then with those for older ones, which this kernel runs too. Then it prints microseconds: the least, the median and what nine of ten
# rounds keep. It needs root, what the build of the recorder needs, and Linux 5.17. Its table is in docs/MEASURED.md.
set -euo pipefail

here=$(readlink -f -- "${BASH_SOURCE[0]}")
root=${here%/*/*/*}
room=$(mktemp -d -t checks-copying.XXXXXX)
trap 'rm -rf -- "$room"' EXIT
PATH=$PATH:/usr/sbin:/sbin
machine=$(uname -m)
case $machine in
  x86_64) target=x86 ;;
  *) target=arm64 ;;
esac

play() { # ROUNDS NAME OPTION..: the programs that the options make
  local folder=$room/$2
  mkdir -- "$folder"
  clang -O2 -g -target bpf -mcpu=v3 "-D__TARGET_ARCH_$target" "-I/usr/include/$machine-linux-gnu" \
    "-I$root/recorder" -Wall -Werror "${@:3}" -c "$root/checks/recorder/copying.bpf.c" -o "$folder/copying.bpf.o"
  bpftool gen skeleton "$folder/copying.bpf.o" name copying >"$folder/copying.skel.h"
  gcc -O2 -std=gnu11 -Wall -Wextra -Werror "-I$root/recorder" -isystem "$folder" "$root/checks/recorder/copying.c" \
    "$root/recorder/common.c" "$root/recorder/ring.c" -o "$folder/copying" -lbpf -lelf -lz -lpthread
  printf 'the programs for %s kernels\n' "$2"
  "$folder/copying" "$1"
}

play "${1:-400}" newer
play "${1:-400}" older -DOLDER_KERNELS
