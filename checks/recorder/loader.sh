#!/usr/bin/env bash
# Checks that no caller can hold up the recorder's loader, or make it keep more than it may: one frame with 30,000
# entries, 200,000 ends of processes while a write waits, 500 MiB of other frames while a write waits, and 100 MiB of
# frames that can be written at once, and are redacted. Also that command lines of all bytes are whole lines of the side
# list, and that frames share lines, which are read back. And if most frames of a flight recorder are written only when
# it ends, that the last side list tells of the driver's books of the end, and each one of what was missed meanwhile,
# since older side lists are removed then. And that a recording ends at one moment: what has its number by then is
# written later, and what comes later is in no line. And that the side list says what the clocks show after a sleep, and
# after the wall clock was set back, at once and in each later list, and at the end; and what alone is recorded. And that
# no process can take the files of a flight recorder for what it names and opens: each file has its frames, be the first
# lines of its side list ever so many. If there is no room for more openings, the side lists say who has them. And that
# names which somebody else makes in the same folder end no recording. And that a command line that the program in the
# kernel could not read is read from its process, while nobody waits for that. And that data which is written straight
# from the ring is the same as data that was copied. And when the descriptors of a process are counted.
#
#     checks/run loader
#
# It builds the parts of the recorder that need no kernel, and gives them messages as from the ring; and the recorder
# with a driver that is made up.
set -euo pipefail

here=$(dirname -- "$(readlink -f -- "${BASH_SOURCE[0]}")")
room=$(mktemp -d -t checks-loader.XXXXXX)
trap 'rm -rf -- "$room"' EXIT

failed=0
says() { # WHAT DUE CAME: what came fits a pattern
  if [[ ! $3 =~ ^$2$ ]]; then
    printf 'checks/loader: %s: expected %s, came %s\n' "$1" "$2" "$3" && failed=1
  fi
}

is() { # WHAT DUE CAME
  if [[ $3 != "$2" ]]; then
    printf 'checks/loader: %s: expected %s, came %s\n' "$1" "$2" "$3" && failed=1
  fi
}

# Checks what side lists say of the driver's books and of the end, and that each copy has the length that they name.
tells() { # OUT DUE SIDE..
  local told name size
  told=$(sed -nE 's/^[0-9]+ (books|end) ([a-z]+)( [a-z]+)? .*/\2\3/p' "${@:3}" | paste -sd ,)
  is "what the side lists of $1 tell" "$2" "$told"
  while read -r name size; do
    is "the bytes of $1.$name" "$size" "$(stat -c %s -- "$1.$name")"
  done < <(sed -nE 's/^[0-9]+ books ([a-z]+) ([a-z]+) .* bytes=([0-9]+)$/\1.\2 \3/p' "${@:3}")
}

# Prints side lists with a line for each frame.
each_frame() { # SIDE..
  awk '$2 != "frames" { print; next }
    { time = $1; for (at = 3; at <= NF; at++) { if (at > 3) time += $at; printf "%.0f frame %.0f\n", time, $3 + at - 3 } }' "$@"
}

# Checks the lines of what ends and is lost, the last frame, that none is missing before it, and that no frame is later
# than the end.
ends_at_once() { # SIDE
  local due told
  due=$'end pid 2001 after=103\nend recording after=103 frames=103 lost=0\nframe 103 in time'
  told=$(each_frame "$1" | awk '$2 == "frame" { if ($3 != last + 1) print "no frame", last + 1
      last = $3; if ($1 > latest) latest = $1 }
    $2 == "end" || $2 == "lost" { time = $1; sub(/^[0-9]+ /, ""); print }
    END { print "frame", last, (latest > time ? "late" : "in time") }')
  is 'the end of a recording' "$due" "$told"
}

# Checks by how many seconds CLOCK_BOOTTIME and the wall clock went further than CLOCK_MONOTONIC, at each line `clocks`.
sleeps() { # DUE SIDE
  local told
  told=$(sed -nE 's/^([0-9]+) (begin|clocks) realtime=([0-9]+) boottime=([0-9]+).*/\2 \1 \3 \4/p' "$2" |
    awk 'function seconds(time) { return int(time / 1e9 + (time < 0 ? -0.5 : 0.5)) }
      $1 == "begin" { wall = $3 - $2; boot = $4 - $2; next }
      { printf "%s%d %d", comma, seconds($3 - $2 - wall), seconds($4 - $2 - boot); comma = "," }')
  is "${2##*/}: what the clocks show" "$1" "$told"
}

"$here/build.sh" loader "$room"
"$room/loader" "$room/out" || failed=1

# Large attachments are written from the ring if it has few bytes for its size. In one of 64 MiB they all stay there, in
# one of 4 MiB some, and else all are copied.
"$here/build.sh" lent "$room"
lists_of() { each_frame "$1"-*.side | sed 's/^[0-9]* //'; }
same_files() { cmp -s <(cat "$1"-*.cap) <(cat "$2"-*.cap) && cmp -s <(lists_of "$1") <(lists_of "$2"); }
for how in '' redact; do
  for ring in copied 67108864 4194304; do "$room/lent" "$room/lent$how-$ring" "$ring" $how || failed=1; done
  for ring in 67108864 4194304; do
    if ! same_files "$room/lent$how-$ring" "$room/lent$how-copied"; then
      printf 'checks/loader: files differ that were written from a ring of %s bytes%s\n' "$ring" "${how:+, redacted}"
      failed=1
    fi
  done
done

"$here/build.sh" hostile "$room" -Wl,--wrap=process_read
"$room/hostile" "$room/hostile" || failed=1

"$here/build.sh" flight "$room" -Wl,--wrap=open,--wrap=clock_gettime
ends='pid,end state,end transactions,end stats,recording'
"$room/flight" -o "$room/whole" 2>/dev/null
told=$(cd -- "$room" && ./flight -o -dash 2>&1)
says 'of files whose names begin with a dash' '.*next: ./audit report ./-dash-1.cap' "$told"
tells "$room/whole" "begin state,begin transactions,begin stats,$ends" "$room/whole.side"
ends_at_once "$room/whole.side"
sleeps '1000 1000,1000 1000' "$room/whole.side"
SET_BACK=1 "$room/flight" -o "$room/set" 2>/dev/null
sleeps '-1000 0,-1000 0' "$room/set.side"
"$room/flight" -o "$room/kept" --size 65536 --files 2 2>"$room/told"
lists=("$room"/kept-*.side)
says "a flight recorder keeps, and says $(<"$room/told")" '[^ ]*kept-[2-9].side [^ ]*kept-[2-9].side' "${lists[*]}"
tells "$room/kept" "$ends" "${lists[@]}"
sleeps '1000 1000' "${lists[0]}"
sleeps '1000 1000,1000 1000' "${lists[1]}"
told=$(for list in "${lists[@]}"; do sed -n '/ file [0-9]*$/,$d; / missed /p' "$list"; done | uniq -c)
says 'what two side lists say before their files of what was missed' ' *2 [0-9]+ missed 3 what=events from=2 after=103' \
  "$told"

# Of the log of failed transactions all is told that was not there at the beginning, but not what the driver has only
# begun to write; and if the log has all of its entries since then, that there may have been others.
fails() { # FAILURES DUE
  local told
  FAILURES=$1 "$room/flight" -o "$room/failed-$1" 2>/dev/null
  told=$(sed -nE 's/^[0-9]+ ((failed|overrun) .*)/\1/p' "$room/failed-$1.side" | sed -E '3,$!b; $!d')
  is "of $1 failures" "$2" "$told"
}
of='to=8 handle=3 data=40 offsets=8 answer=29201 errno=28 from=0 after=103 name=a node 5\x5cb'
fails 2 ''
fails 4 "failed 3 what=call pid=7 tid=3 $of"$'\n'"failed 4 what=oneway pid=7 tid=4 $of"
fails 33 "failed 3 what=call pid=7 tid=3 $of"$'\n'"failed 4 what=oneway pid=7 tid=4 $of"$'\n'"failed 33 what=call pid=7 tid=33 $of"
fails 34 "overrun from=0 after=103"$'\n'"failed 3 what=call pid=7 tid=3 $of"$'\n'"failed 34 what=oneway pid=7 tid=34 $of"

# Each list says what alone is recorded, if not all is, and how many words had no room.
narrowed() { # OUT DUE WORD..: the recorder with these words
  local told
  "$room/flight" -o "$room/$1" "${@:3}" 2>/dev/null
  told=$(for list in "$room/$1"*.side; do sed -nE 's/^[0-9]+ begin .* payloads=(.*) drivers=.*/\1/p' "$list"; done |
    uniq -c)
  says 'what alone is recorded' " *$2" "$told"
}
narrowed all-of-it '1 whole'
narrowed part '2 none narrowed=pid:412,pid:7,only:my\\x20app\\x2cx\\x5c,only:10123,device:binder' --pid 412 --pid 7 \
  --only "my app,x\\" --only 10123 --device /dev/binderfs/binder --no-attachments --size 65536 --files 2
many=()
for ((i = 100; i < 250; i++)); do many+=(--only "$i$(printf ' %.0s' {1..60})"); done
narrowed many '1 whole narrowed=(only:[0-9]{3}(\\x20){60},){32}more:118' "${many[@]}"

# When there is no room for openings, the list says who has the most, after what was missed, and so does each later list.
CROWDED=1 "$room/flight" -o "$room/crowd" --size 65536 2>/dev/null
CROWDED=1 "$room/flight" -o "$room/crowds" --size 65536 --files 2 2>/dev/null
due='missed 5 what=calls-without-number,holder openings=1024 name=flight,holder openings=500 name='
for list in "$room/crowd.side" "$room"/crowds-*.side; do
  told=$(sed -nE 's/^[0-9]+ (missed 5 what=calls-without-number) .*/\1/p; s/^[0-9]+ (holder) pid=[0-9]+/\1/p' "$list" |
    head -n 3 | paste -sd ,)
  is "${list##*/}: who has the most openings" "$due" "$told"
done

# The names that somebody makes meanwhile are OUT-2.cap, OUT-3.side and OUT.end.state. The last one has its name from
# the beginning on.
planted() { # OUT DUE WORD..: the recorder with these words, whose standard error must be of this form
  local told
  PLANTED="$1-2.cap $1-3.side $1.end.state" "$room/flight" -o "$1" --size 65536 "${@:3}" 2>"$room/told"
  told=$(sed "s|$room/||g; s|next: [^ ]*|next:|" "$room/told")
  says 'with names that others have made, the recorder says' "$2" "$told"
  is "${1##*/}: files of somebody else" plantedplanted "$(cat -- "$1-2.cap" "$1-3.side")"
}
passed='record: OUT-2.cap exists already, and is not overwritten: the next file is OUT-'
planted "$room/all" "${passed//OUT/all}3.cap"$'\n''record: 103 frames,.* next: report all-1.cap all-\{3..8\}.cap'
tells "$room/all" "begin state,begin transactions,begin stats,$ends" "$room/all.side"
planted "$room/few" "${passed//OUT/few}4.cap"$'\n''record: 103 frames,.* 2 files,.* next: report few-\{8..9\}.cap' --files 2
tells "$room/few" "$ends" "$room"/few-[89].side
exit "$failed"
