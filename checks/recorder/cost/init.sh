#!/bin/busybox sh
# The first process of a guest for checks/cost. It plays each size of data bare, recorded, recorded with stacks, without
# data, and while another device alone is recorded:
#   calls   some calls while the loader is stopped, so that they alone are counted
#   rate    if there is /rates, 1,000 calls a second beside the loader, whose processor time is told, and what it has
#           written
# and writes a line for each: `cost: calls HOW BYTES COUNT NANOSECONDS` and
# `cost: rate HOW BYTES COUNT NANOSECONDS LOADER IDLE CAPTURE SIDE`, where LOADER is in nanoseconds, as is IDLE, what it
# takes of as long a time without calls. `stack: NUMBER` is how many functions the longest stack has. Before that, if
# there is /opens, files are opened and closed (opens.c), bare and looked at, with lines
# `cost: opens HOW 0 COUNT NANOSECONDS`.
# shellcheck shell=dash source=checks/recorder/guest/init.sh disable=SC2013,SC2086,SC2119,SC2154
. /guest.sh
add_driver
here=/out

processor_time() { # of the loader, in nanoseconds
	cut -d ' ' -f 1 /proc/$recorder/schedstat
}

begin() { # [OPTION]..
	begin_recording "$@"
	sleep 1
}

end() {
	sleep 1
	end_recording
	grep -q ' 0 lost' /out/record.txt || echo "guest: wrong: frames were lost"
}

longest_stack() {
	most=0
	for addresses in $(sed -n 's/.* stack .* pcs=//p' /out/capture.side); do
		number=$(echo $addresses | tr , '\n' | wc -l)
		[ $number -gt $most ] && most=$number
	done
	echo "stack: $most"
}

calls() { # HOW BYTES COUNT
	[ "$1" = bare ] || kill -STOP $recorder
	for _ in 1 2 3; do echo "cost: calls $1 $2 $3 $(/calls $2 $3)"; done
	[ "$1" = bare ] || kill -CONT $recorder
}

size_of() { # FILE
	stat -c %s /out/$1
}

rate() { # HOW BYTES COUNT
	sleep 1		# until the loader has written what there was
	capture=$(size_of capture-1.cap) side=$(size_of capture.side) before=$(processor_time)
	sleep $(($3 / 1000 + 1))
	idle=$(($(processor_time) - before))
	before=$(processor_time)
	took=$(/calls $2 $3 1000)
	sleep 1
	loader=$(($(processor_time) - before))
	capture=$(($(size_of capture-1.cap) - capture)) side=$(($(size_of capture.side) - side))
	echo "cost: rate $1 $2 $3 $took $loader $idle $capture $side"
}

echo "cost $(now)" >/tmp/line
watch_time &
if [ -e /opens ]; then /opens 2000 || echo "guest: wrong: no files were opened"; fi
# So many calls fit into the ring of the recorder.
while read -r bytes count more; do
	calls bare $bytes $count
	for how in recorded stacks no-data elsewhere; do
		case $how in
		recorded) options= ;;
		stacks) options=--stacks ;;
		no-data) options=--no-attachments ;;
		elsewhere) options='--device hwbinder' ;;
		esac
		begin $options
		calls $how $bytes $count
		[ -e /rates ] && rate $how $bytes $more
		end
		[ $how = stacks ] && longest_stack
		rm /out/capture*
	done
done <<END
128 1000 3000
65536 60 1000
END
finish
