# For the scripts here: what a machine that the recorder is built for is called, and its compiler. They source this file
# with the name in `machine`.
# shellcheck shell=bash disable=SC2034

own=$(uname -m)
machine=${machine:-$own}
case $machine in
  x86_64) architecture=amd64 target=x86 compiler=x86_64-linux-gnu-gcc compiler_package=gcc-x86-64-linux-gnu ;;
  aarch64) architecture=arm64 target=arm64 compiler=${CC_FOR_ARM64:-aarch64-linux-gnu-gcc}
    compiler_package=gcc-aarch64-linux-gnu ;;
  *) printf 'record: the recorder is made for x86_64 and aarch64, not for %s\n' "$machine" >&2 && exit 1 ;;
esac
if [[ $machine == "$own" ]]; then compiler=gcc compiler_package=gcc; fi
compiler=${CC:-$compiler}
PATH=$PATH:/usr/sbin:/sbin
