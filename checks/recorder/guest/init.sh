# What the guests of the checks have in common: the first process of each, /init, sources this file. What it says on the
# console begins with `guest: `; boot.py reads it.
# shellcheck shell=dash disable=SC2013,SC2034,SC2046,SC2086,SC2154
/bin/busybox --install -s /bin
export PATH=/bin LD_LIBRARY_PATH=/lib
echo	# the firmware of x86-64 leaves its last line open
mkdir -p /proc /sys /dev /out /tmp
mount -t proc proc /proc
mount -t sysfs sys /sys
mount -t devtmpfs dev /dev
mount -t debugfs debug /sys/kernel/debug
mount -t tracefs trace /sys/kernel/tracing 2>/dev/null
mount -t tmpfs tmp /tmp
mount -t tmpfs -o size=80% out /out
for module in $(cat /modules/order); do insmod /modules/$module || echo "guest: wrong: $module was not loaded"; done
uname -r >/out/kernel
cp /proc/cmdline /out/cmdline

# The driver with its three devices, whichever it is. The one in C takes options.
add_driver() { # [OPTION..]
	if [ -e /sys/module/rust_binder ]; then
		mkdir /dev/binderfs
		mount -t binder -o stats=global binder /dev/binderfs
		for device in binder hwbinder vndbinder; do ln -s binderfs/$device /dev/$device; done
		driver=rust_binder other=binder_linux
	else
		insmod /modules/binder_linux.ko devices=binder,hwbinder,vndbinder "$@"
		driver=binder_linux other=rust_binder
	fi
	[ -e /sys/module/$driver ] || echo "guest: wrong: no driver"
	echo 1 >/proc/sys/kernel/kptr_restrict
}

now() { cut -d' ' -f1 /proc/uptime; }

# ---- recording

wait_for_begin() { # until the recording into $here has begun, or there is no recorder
	while ! grep -q ' begin ' $here/capture.side && kill -0 $recorder; do sleep 0.2; done 2>/dev/null
}

# Begins a recording into $here, which `end_recording` ends.
begin_recording() { # [OPTION..]
	/record "$@" -o $here/capture 2>$here/record.txt & recorder=$!
	wait_for_begin
}

end_recording() { # and says what the recorder said, whose status it has
	kill -TERM $recorder
	wait $recorder
	set -- $?
	cat $here/record.txt
	return $1
}

# ---- results

blocks=0
save() { # FILE..: of /out, onto the disk, behind what was saved before
	(cd /out && tar cf /tmp/saved "$@")
	dd if=/tmp/saved of=/dev/vda bs=65536 seek=$blocks 2>/dev/null
	blocks=$((blocks + ($(stat -c %s /tmp/saved) + 65535) / 65536))
	rm /tmp/saved
	sync
}

# Says each ten seconds of the guest that it is there. If a line of the plan takes longer than /limit has seconds, it ends
# all but itself, and if that does not help, the guest.
watch_time() {
	limit=$(cat /limit) killed=
	while sleep 10; do
		echo "guest: $(now)"
		read -r name began 2>/dev/null </tmp/line || continue
		late=$(($(now | cut -d. -f1) - ${began%.*} - limit))
		if [ $late -ge 60 ]; then
			echo "guest: wrong: $name does not end"
			poweroff -f
		elif [ $late -ge 0 ] && [ "$killed" != "$name" ]; then
			echo "guest: wrong: $name takes more than $limit s of the guest"
			killed=$name
			kill -KILL -1
		fi
	done
}

# Plays the lines of /plan, each by the command with its words, and saves each at once: a guest that hangs leaves
# something too. A line begins with its name; $here is the folder for what comes of it, and the command sets `what`, how
# it was played.
play_plan() { # COMMAND
	save kernel cmdline
	watch_time &
	echo 'guest: begins'
	while read -r name words; do
		here=/out/$name
		mkdir -p $here
		dmesg -c >/dev/null
		began=$(now)
		echo "$name $began" >/tmp/line
		$1 $words >$here/output 2>&1
		status=$?
		rm -f /tmp/line
		ended=$(now)
		echo "$status $what $began $ended" >$here/status
		dmesg -c >$here/dmesg
		save $name
		rm -r $here
		echo "guest: ended $name status=$status seconds=$(echo "$ended $began" | awk '{ print $1 - $2 }')"
	done </plan
	finish
}

finish() {
	echo 'guest: done'
	poweroff -f
}
