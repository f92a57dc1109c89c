# What `record --adb` has done on the device, by its sh, as root, in the folder of the recording.
#
#     sh on_device.sh record NAMES COLLECT [OPTION..] [-- PROGRAM ARGUMENT..]
#         records, and passes on what the recorder says, first what the device lacks or that it is ready, until PROGRAM
#         ends. Without PROGRAM it says when the recording has begun. Each line of standard input, and its end, is
#         passed on as SIGINT, but for `keep`, which is SIGUSR1. With --live the recorder writes its lines of each second
#         to the connection; a thread of its own does that. If NAMES is `services` or `all`, the managers are asked for
#         the names of all services; if it is `all`, the packages and their user ids are asked for too, and are in
#         capture.packages. COLLECT is who collects garbage before the recording ends: `nobody`, `apps`, or the names of
#         processes, with commas between.
#     sh on_device.sh detach NAMES COLLECT [OPTION..] [-- PROGRAM ARGUMENT..]
#         begins the same, and returns when the recording has begun, or has failed.
#     sh on_device.sh end
#         ends what was begun so, waits for that, and passes on what was said since.
#     sh on_device.sh program PROGRAM ARGUMENT..
#         runs the program that is recorded, and then has the garbage collected.
#
# The folder has `state`: `recording`, and then the status of the recorder, or nothing if the device is full; `pid`;
# `collect`, who collects garbage, until that is done; and `messages`, what the recorder says, of which so many bytes as
# `told` has were passed on when it began. The recorder does not write to the connection itself, which may stall, but for
# these lines and the one that it is ready, before PROGRAM begins.
# It uses what toybox, mksh and busybox have.
# shellcheck shell=dash
umask 077
exec 4>&2 2>/dev/null	# what the commands say, when for example another one removes the folder, is for nobody

is_recording() {
	[ "$(cat state)" = recording ] && [ "/proc/$(cat pid)/exe" -ef record ]
}

wait_for_pid() {
	while [ ! -e pid ] && [ "$(cat state)" = recording ]; do sleep 0.1; done
}

# The name that a process has in its command line, where NULs end the words.
name_of() { # PROCESS
	name=
	read -r name <"$1/cmdline"
	[ "$name" ]
}

# Whether a process waits for SIGUSR1, as all of Java do: any other one would end by it. The mask is in hexadecimal.
waits_for_signal() { # PROCESS
	blocked=
	while read -r word value _; do
		case $word in PPid:) parent=/proc/$value ;; SigBlk:) blocked=$value ;; esac
	done <"$1/status"
	case $blocked in *[2367abef]??) ;; *) return 1 ;; esac
}

# Whether a process is among these: by its name, or an app, which the zygote forked and which has a name of its own.
is_among() { # NAMES PROCESS
	name_of "$2" || return 1
	if [ "$1" != apps ]; then
		case ,$1, in *",$name,"*) return ;; *) return 1 ;; esac
	fi
	case $name in *zygote* | usap* | '<pre-initialized>') return 1 ;; esac
	name_of "$parent" || return 1
	case $name in *zygote*) ;; *) return 1 ;; esac
}

# Has garbage collected, once: so the handles of dropped proxies are let go of, and the recorder sees that.
collect() {
	[ -e collect ] || return
	names=$(cat collect) count=0 what=processes
	rm collect
	for process in /proc/[0-9]*; do
		if waits_for_signal "$process" && is_among "$names" "$process" && kill -USR1 "${process#/proc/}"; then
			count=$((count + 1))
		fi
	done
	if [ $count = 1 ]; then what=process; fi
	echo "record: the garbage of $count $what is collected; the recording ends 2 s later" >>messages
	sleep 2
}

# As Ctrl-C does on a terminal: the recorder and the program get the signal. It waits for a recorder that just begins.
interrupt() {
	wait_for_pid
	is_recording && collect
	is_recording && kill -INT "-$(cat pid)"
}

has_begun() {
	cat capture.side capture-*.side | grep -q ' begin realtime='	# the first one may be removed by now
}

# Android ends all processes of the service adbd when it stops it, for example when the cable comes off: those in its
# control group. Outside it a recording ends in order, or goes on.
leave_adbd() {
	for group in /sys/fs/cgroup /acct; do
		[ -w $group/cgroup.procs ] && echo 0 >$group/cgroup.procs
	done
}

wait_for_begin() {
	wait_for_pid
	while is_recording && ! has_begun; do sleep 0.2; done
}

# Each manager answers for its device, if the system has it: so the names of all services are in the capture.
ask_names() {
	wait_for_begin
	for command in 'service list' 'vndservice list' lshal; do
		command -v "${command%% *}" && timeout 20 sh -c "$command"
	done
} </dev/null >/dev/null 4>&-

# Asks while the recorder is loaded, so that it is done by the time that even a short recording has ended. The file is
# there only with a recording, and whole.
ask_packages() {
	command -v pm && timeout 20 pm list packages -U | grep '^package:[^ ]* uid:[0-9,]*$' >packages.new
	wait_for_begin
	[ -s packages.new ] && has_begun && mv packages.new capture.packages
} </dev/null >/dev/null 4>&-

prepare() {
	trap '' HUP
	leave_adbd
	echo recording >state
	: >messages
}

# Ends a recorder whose folder is gone: what it records is nobody's. The second signal ends its wait for a program.
end_without_folder() { # RECORDER
	while [ -e state ]; do sleep 2; done
	while kill -INT "-$1"; do sleep 10; done
} </dev/null >/dev/null 4>&-

# Runs the recorder in a session of its own, so that it and its program can be signalled as one.
run() { # NAMES COLLECT [OPTION..] [-- PROGRAM ARGUMENT..]
	names=$1 asker= program= live=-
	if [ "$2" != nobody ]; then
		echo "$2" >collect
		program='sh on_device.sh program'
	fi
	shift 2
	for word; do	# the program comes after the first --
		shift
		set -- "$@" "$word"
		if [ "$word" = --live ] && [ $live = - ]; then live=4; fi
		if [ "$word" = -- ] && [ $live = - ]; then live=none; fi
		# shellcheck disable=SC2086
		if [ "$word" = -- ]; then set -- "$@" $program && program=; fi
	done
	if [ "$names" = all ]; then ask_packages & asker=$!; fi
	# The shell of busybox takes no `-` of a variable for a descriptor.
	if [ $live = 4 ]; then
		RECORD_READY=3 RECORD_LIVE=5 setsid ./record -o capture "$@" </dev/null 3>&4 5>&4 2>>messages 4>&- & recorder=$!
	else
		RECORD_READY=3 setsid ./record -o capture "$@" </dev/null 3>&4 2>>messages 4>&- & recorder=$!
	fi
	# Until setsid has become the recorder, or that has ended.
	while [ -e /proc/$recorder/exe ] && ! [ /proc/$recorder/exe -ef record ]; do sleep 0.1; done
	echo $recorder >pid
	if [ "$names" != none ]; then ask_names & fi
	end_without_folder $recorder & watcher=$!
	wait $recorder
	status=$?
	kill $watcher
	if [ "$asker" ]; then kill $asker; fi	# what it puts there later would be in the way of the folder's removal
	echo $status >state
}

# Passes on what was said since the last time.
tell() {
	size=$(stat -c %s messages)
	if [ "$size" -gt "${told:-0}" ]; then tail -c +$((${told:-0} + 1)) messages | head -c $((size - ${told:-0})) >&4; fi
	told=$size
}

# Says once that the recording has begun, which ends by Ctrl-C: that of a PROGRAM shows itself.
tell_begun() { # NAMES COLLECT [OPTION..] [-- PROGRAM ARGUMENT..]
	for word; do [ "$word" != -- ] || return; done
	if [ -z "$begun" ] && has_begun; then
		echo 'record: recording; Ctrl-C ends it, and fetches the files' >&4
		begun=1
	fi
}

# A line is `keep`, or an interrupt.
listen() {
	while read -r word; do
		case $word in
		keep) is_recording && kill -USR1 "$(cat pid)" ;;
		*) interrupt ;;
		esac
	done
	interrupt
}

case $1 in
record)
	prepare
	shift
	run "$@" & runner=$!
	exec 3<&0
	(exec <&3 >/dev/null 4>&-; listen) & listener=$!
	exec 3<&- </dev/null
	while kill -0 $runner && [ ! -e pid ]; do sleep 0.1; done
	while is_recording; do
		sleep 0.5
		tell_begun "$@"
		tell
	done
	wait $runner
	tell
	kill $listener
	;;
detach)
	prepare
	shift
	# By exec: adb waits for all that hold the connection, and a shell keeps what it redirects for one command.
	(exec </dev/null >/dev/null 4>>messages; run "$@") & runner=$!
	while kill -0 $runner && [ ! -e pid ]; do sleep 0.1; done
	wait_for_begin
	tell
	echo "$told" >told
	;;
end)
	told=$(cat told)
	while is_recording; do		# a second signal ends the wait for a program that does not end
		interrupt
		for _ in 1 2 3 4 5 6 7 8 9 10; do is_recording && sleep 1; done
	done
	tell
	;;
program)
	shift
	"$@" 2>&4 4>&-
	status=$?
	collect
	exit $status
	;;
esac
exit 0
