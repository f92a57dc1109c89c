#!/bin/busybox sh
# shellcheck shell=dash source=checks/recorder/guest/init.sh
. /guest.sh
# The driver in C is a module, and that in Rust is not.
[ -e /sys/module/rust_binder ] || insmod /modules/binder_linux.ko

keep() { # FILE, and the lines of it that count
	mkdir -p "/kept/${1%/*}"
	grep -E "$2" "$1" >"/kept/$1"
}

functions='(preempt_schedule|binder_(open|release)|_R[^ ]*rust_binder_(open|release))'
keep /proc/kallsyms " $functions( |\$)"
keep /sys/kernel/tracing/available_filter_functions "^$functions( |\$)"
for driver in binder rust_binder; do
	[ -e /sys/kernel/tracing/events/$driver/binder_ioctl ] || continue
	for event in binder_ioctl binder_command binder_write_done binder_ioctl_done; do
		keep /sys/kernel/tracing/events/$driver/$event/format '^[^I]'	# without its ID
	done
done
for event in exec exit; do keep /sys/kernel/tracing/events/sched/sched_process_$event/format '^[^I]'; done
for driver in binder_linux rust_binder; do
	[ -e /sys/module/$driver ] && mkdir -p /kept/sys/module && echo there >/kept/sys/module/$driver
done
uname -r >/kept/release
mkdir -p /kept/sys/kernel/btf
cp /sys/kernel/btf/vmlinux /kept/sys/kernel/btf/
cd /kept && tar cf /dev/vda .
sync
finish
