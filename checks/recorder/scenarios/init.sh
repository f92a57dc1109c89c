#!/bin/busybox sh
# The guest's first process: it plays the lines of /plan and leaves the results on the disk, as tar files one after
# another. A line is: NAME HOW SCENARIO [NUMBER]. HOW is how it is recorded:
#   both     by the recorder, with the witness in the programs
#   record   by the recorder only, with statically linked programs
#   record32 by the recorder only, with statically linked 32-bit programs
#   late     by a recorder that is started while the scenario is at work
#   before   by a recorder that is started when the scenario has made the file `ready`, and stopped when it has made
#            `rested`
#   alive    by a recorder that is started before the scenario, and stopped when that has made the file `rested`: so all
#            processes are alive at the end of the recording
#   beyond   the same, where the scenario goes on after that
#   hidden   as `late`, where the kernel hides its addresses
#   killed   by a recorder that is killed while the scenario is at work
#   stopped  by a recorder that is stopped for some seconds while the scenario is at work
#   full     the same with a small ring, so that numbers are lost for lack of room
#   drivers  by a recorder that seems to find two drivers, after one that seems to find only the one that is not there
#   untraced  by a recorder that finds the driver's tracepoints, after one that does not
#   two-drivers  where the device hwbinder is of the driver in C, and the others are of the one in Rust
#   narrow   by the recorder only, with a small ring, and the scenario itself makes it lose frames
#   redact   by the recorder only, which redacts payloads
#   stacks   by the recorder only, which takes stacks, with programs that keep frame pointers; `program` is that program
#   frameless  the same with programs that do not
#   hoard    by the recorder only, which keeps the newest 4 files of 8 MiB; `memory` is how much it had at most
#   blind    by the recorder only, a session of a blind test set: ../driver/blind.py
#   blind-before  the same as `before`
#   blind-live  the same as `alive`
#   traced   by the recorder only, beside Perfetto's service, which traces the scheduler meanwhile into `system.pftrace`
#   traced-long  the same, where the trace is written piece by piece, with flushes
#   kept     by the recorder only, which keeps the newest 4 files of 1 MiB, and a set of them when a call has been open for
#            5 s
#   flight   by the recorder only, which keeps the newest 4 files of 128 KiB; `most-files` is how many there were at
#            most
# shellcheck shell=dash source=checks/recorder/guest/init.sh disable=SC2046,SC2086,SC2154
. /guest.sh
add_driver debug_mask=3
more=$(cat /words)	# options of each recorder

capture_size() { stat -c %s $here/capture-1.cap 2>/dev/null || echo 0; }

background() { # SIGNAL: sent to the recorder after it has recorded some of a scenario that was already at work
	/scenarios.static $scenario $here $number & program=$!
	sleep 1
	/record $more $ring -o $here/capture 2>$here/record.txt & recorder=$!
	while kill -0 $program 2>/dev/null && [ $(capture_size) -lt 200000 ]; do sleep 0.2; done
	kill -$1 $recorder
	[ $1 = STOP ] && { sleep 3; kill -CONT $recorder; sleep 3; kill -TERM $recorder; }
	wait $recorder
	kill -KILL $program
	wait $program
	cat $here/record.txt
}

wait_for() { # COMMAND..: until it succeeds, or the program of the scenario has ended
	while ! "$@" && kill -0 $program; do sleep 0.2; done 2>/dev/null
}

end_of_recording() { # when the session has rested; the status is that of its program
	wait_for [ -e $here/rested ]
	$1
	end_recording
	touch $here/stop
	wait $program
}

before() { # PROGRAM
	$1 $scenario $here $number & program=$!
	wait_for [ -e $here/ready ]
	begin_recording $more
	sleep 1
	touch $here/go
	end_of_recording 'sleep 1'
}

live() { # PROGRAM
	begin_recording $more
	$1 $scenario $here $number & program=$!
	end_of_recording :
}

# Looks again and again how much memory the recorder has of its own, without its ring, and keeps the most.
watch_memory() {
	most=0
	while [ ! -e $here/ended ]; do
		set -- $(grep RssAnon /proc/$(pidof record)/status 2>/dev/null)
		[ "${2:-0}" -gt $most ] && most=$2
		usleep 20000
	done
	echo $most >$here/memory
}

# Looks again and again how many captures there are, and how much memory the recorder has, until it has ended.
count_files() {
	most=0 look=0
	while [ ! -e $here/ended ]; do
		set -- $here/capture-*.cap
		[ $# -gt $most ] && most=$#
		look=$((look + 1))
		[ $((look % 100)) = 50 ] && grep VmHWM /proc/$(pidof record)/status >$here/memory
		sleep 0.05
	done
	echo $most >$here/most-files
}

newest_files() { # BYTES WATCHER [OPTION]: keeps the newest 4 files of so many bytes, while the watcher looks
	$2 & watcher=$!
	/record $more --size $1 --files 4 $3 -o $here/capture -- /scenarios.static $scenario $here $number
	status=$?
	touch $here/ended
	wait $watcher
	return $status
}

with_stacks() { # PROGRAM
	/record --stacks -o $here/capture -- $1 $scenario $here $number
	status=$?
	cp $1 $here/program
	return $status
}

# Perfetto's service traces the scheduler from before the recording until after it, with the words of a config.
traced() { # WORDS
	perfetto="/perfetto/ld-linux-x86-64.so.2 --library-path /perfetto /perfetto"
	services=
	echo "$1" | cat /perfetto/config - >$here/config
	for service in traced traced_probes; do
		$perfetto/$service 2>>$here/services.txt & services="$services $!"
		sleep 2
	done
	$perfetto/perfetto --txt -c $here/config -o $here/system.pftrace 2>>$here/services.txt & tracing=$!
	sleep 3
	/record $more -o $here/capture -- /scenarios.static $scenario $here $number
	status=$?
	sleep 1
	kill -TERM $tracing
	wait $tracing || status=1
	kill $services
	return $status
}

# Runs the recorder where sysfs seems to have only the driver that is not there, and then both. That driver has no
# tracepoints.
pretend_drivers() {
	mount -t tmpfs none /sys/module
	mkdir /sys/module/$other
	/record -o $here/refused -- /scenarios.static $scenario $here $number
	echo "the absent one alone: status $?"
	mkdir /sys/module/$driver
	/record -o $here/capture -- /scenarios.static $scenario $here $number
	status=$?
	umount /sys/module
	return $status
}

# Runs the recorder where the driver's tracepoints seem to be away, and then where they are there.
without_tracepoints() {
	events=/sys/kernel/debug/tracing/events/$1
	mount -t tmpfs none $events
	/record --check
	echo "without tracepoints: status $?"
	/record -o $here/refused -- /scenarios.static $scenario $here $number
	echo "recorded without them: status $?"
	umount $events
	/record -o $here/capture -- /scenarios.static $scenario $here $number
}

# The driver in C makes a device, beside those of the driver in Rust.
with_two_drivers() {
	rm /dev/hwbinder
	insmod /modules/binder_linux.ko devices=hwbinder
	/record --check
	/record $more -o $here/capture -- /scenarios.static $scenario $here $number
}

play() { # HOW SCENARIO [NUMBER]
	what=$1 how=$1 scenario=$2 number=$3
	case $how in
	both)
		mkdir -p /witness/$name
		/record $more -o $here/capture -- \
			/bin/env WITNESS=/witness/$name LD_PRELOAD=/witness.so /scenarios $scenario $here $number
		status=$?
		mv /witness/$name/frames /witness/$name/names $here/
		return $status;;
	record) /record $more -o $here/capture -- /scenarios.static $scenario $here $number;;
	record32) /record $more -o $here/capture -- /scenarios.32 $scenario $here $number;;
	narrow) /record $more --ring 65536 -o $here/capture -- /scenarios.static $scenario $here $number;;
	redact) /record --redact -o $here/capture -- /scenarios.static $scenario $here $number;;
	stacks) with_stacks /scenarios.framed;;
	frameless) with_stacks /scenarios;;
	traced) traced;;
	traced-long) traced 'write_into_file: true file_write_period_ms: 2500 flush_period_ms: 5000';;
	flight) newest_files 131072 count_files;;
	kept) newest_files 1048576 count_files '--keep-on hang:5s';;
	hoard) newest_files 8388608 watch_memory;;
	late) background TERM;;
	before) before /scenarios.static;;
	alive | beyond) live /scenarios.static;;
	blind) /record $more -o $here/capture -- /blind $scenario $here $number;;
	blind-before) before /blind;;
	blind-live) live /blind;;
	hidden)
		echo 2 >/proc/sys/kernel/kptr_restrict
		background TERM
		echo 1 >/proc/sys/kernel/kptr_restrict;;
	drivers) pretend_drivers;;
	untraced) without_tracepoints rust_binder;;
	two-drivers) with_two_drivers;;
	killed) background KILL;;
	stopped) background STOP;;
	full) ring='--ring 65536' && background STOP && ring=;;
	esac
}

play_plan play
