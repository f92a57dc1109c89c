#!/bin/busybox sh
# The guest's first process: it plays the lines of /plan and leaves the results on the disk, as tar files one after
# another. A line is one of these:
#   NAME test RELEASE HOW COMMAND..       runs a test of this Android, with a servicemanager of its own. HOW is
#                                         `unrecorded`, `recorded`, or the recorder's option
#   NAME scene RELEASE HOW SECONDS ROLE.. starts the roles of the small system one after another, and ends the recording
#                                         after so many seconds, when all of them are alive. ROLE=N works N seconds, and
#                                         rests
#   NAME session RELEASE recorded SECONDS STEP..  plays a session of a blind test set: blind.py has its steps
# shellcheck shell=dash source=checks/recorder/guest/init.sh disable=SC2046,SC2086,SC2119,SC2154
. /guest.sh
add_driver
mkdir -p /dev/shm
mount -t tmpfs shm /dev/shm
ip link set lo up

# A test runs itself anew, by the path by which it is called.
play_test() { # HOW COMMAND..
	how=$1
	program=$(command -v $2)
	shift 2
	case $how in
	unrecorded) /with-manager $program "$@";;
	recorded) /record -o $here/capture -- /with-manager $program "$@";;
	*) /record $how -o $here/capture -- /with-manager $program "$@";;
	esac
}

play_scene() { # HOW SECONDS ROLE..
	begin_recording $1
	seconds=$2
	shift 2
	servicemanager & players=$!
	sleep 0.3
	for role; do
		case $role in
		*=*) ${role%=*} ${role#*=} & players="$players $!";;
		*) $role & players="$players $!";;
		esac
		sleep 0.2
	done
	sleep $seconds
	end_recording
	status=$?
	kill -KILL $players
	return $status
}

play_session() { # HOW SECONDS STEP..
	begin_recording
	seconds=$2
	shift 2
	servicemanager &
	sleep 0.5
	for step; do
		case $step in
		@*) sleep ${step#@};;
		!*) kill -KILL $(pidof ${step#!});;
		*)
			# By its path: a role may be called like an applet of busybox.
			$programs/$(echo $step | tr : ' ') &
			sleep 0.2;;
		esac
	done
	sleep $seconds
	end_recording
}

# Ends what a line has left, so that the next one begins anew.
end_all() {
	for process in /proc/[0-9]*; do
		case $(readlink $process/exe) in
		/android-*) kill -KILL ${process#/proc/};;
		esac
	done
	sleep 0.3
}

play() { # WHAT RELEASE HOW WORD..
	what="$1 $3" kind=$1
	programs=/android-$2
	export PATH=/bin:$programs LD_LIBRARY_PATH=$programs:/lib
	shift 2
	play_$kind "$@"
	status=$?
	end_all
	return $status
}

play_plan play
