#!/usr/bin/env bash
# Builds a kernel with the Binder driver in Rust, of Debian sid's sources with sid's tools: Debian's own kernels have
# only the driver in C. That driver is a module of it, without binderfs, since the two can't both be built in.
# guest/kernels.py calls this script, as root:
#
#     rust_kernel.sh SID TO     SID is a folder for a new sid, and TO gets boot/ and lib/modules/
#
# rust_kernel.config has all that the kernel gets: what it does not name is left out, also what is there by default.
# The kernel is not packed: QEMU boots it so by PVH.
set -euxo pipefail
unset TMPDIR # such a folder need not be there in sid

here=$(dirname -- "$(readlink -f -- "${BASH_SOURCE[0]}")")
tools=(rustc rust-src bindgen clang lld llvm libclang-dev bc flex bison libelf-dev libdw-dev libssl-dev make pahole cpio
  kmod xz-utils perl python3 libc6-dev gcc)
debootstrap --variant=minbase sid "$1" http://deb.debian.org/debian
echo force-unsafe-io >"$1/etc/dpkg/dpkg.cfg.d/unsafe-io" # nobody takes a sid that a system's end left half written
cp -- "$here/rust_kernel.config" "$1/usr/src/fragment"
# In a namespace of its own, so that nothing stays mounted.
# shellcheck disable=SC2016
DEBIAN_FRONTEND=noninteractive unshare --mount sh -euc 'mount -t proc proc "$1/proc"; exec chroot "$@"' sh "$1" \
  sh -euxc '
  apt-get install -y --no-install-recommends "$@"
  package=$(apt-cache search --names-only "^linux-source-[0-9.]+\$" | awk "{ print \$1 }" | sort -V | tail -n 1)
  apt-get install -y --no-install-recommends "$package"
  mkdir /usr/src/source /usr/src/out
  tar xJf "/usr/src/$package.tar.xz" -C /usr/src/source --strip-components=1
  cd /usr/src/source
  make -s LLVM=1 O=/usr/src/out KCONFIG_ALLCONFIG=/usr/src/fragment allnoconfig
  if grep -vxFf /usr/src/out/.config /usr/src/fragment; then exit 1; fi # what these sources do not take
  nice make -s LLVM=1 O=/usr/src/out "-j$(nproc)" vmlinux modules
  llvm-strip --strip-debug /usr/src/out/vmlinux /usr/src/out/drivers/android/binder_linux.ko' sh "${tools[@]}"
out=$1/usr/src/out
mkdir -p -- "$2/boot" "$2/lib/modules"
cp -- "$out/vmlinux" "$2/boot/vmlinuz-$(cat -- "$out/include/config/kernel.release")"
cp -- "$out/.config" "$2/boot/config"
cp -- "$out/drivers/android/binder_linux.ko" "$2/lib/modules/"
