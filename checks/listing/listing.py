"""Checks the lines and the tables of `./listing`.

    checks/run listing [-- CASE..]     plays these cases alone, as `errors`, `stored/death.txt`, or `stored`
    checks/run listing -- --print ..   writes the stored listings of these cases anew, and prints what changed

Each file in `stored/` beside this one must be what the command in its first line prints. The columns that
listing_tables fills are those of viewer/database/schema.sql. Of a malformed capture, with each kind of fault, in one
part and in a later one, --tables also writes what comes before the fault: a good capture with the same rows. A side
list with many frames in a line is read like one with a line for each frame. What can't be listed has a line that says
why, and its status. That the program reads captures rightly is for `tables_again`, and what is printed for `printed`.
"""

import argparse
import os
import pathlib
import re
import subprocess

from checks.kit import runs
from checks.kit.captures import BC_ACQUIRE, ENTER, HEADER, HEADER_2, MAX_64, each, frame_header, write
from checks.kit.cases import Part, parts_of, play
from checks.kit.checking import FLAG, Fail, check, compare
from checks.kit.frames import frames_of
from checks.kit.listed import listed
from checks.kit.programs import CHECKS, DRIVER, ROOT, SMALL, TABLES
from checks.kit.rows import columns_of_tables
from checks.kit.side_lists import LONGEST, packed, unpacked
from checks.kit.stored import renew

STORED = sorted((CHECKS / "listing/stored").iterdir())
# The captures of the real driver.
CAPTURES = sorted(DRIVER.glob("*/capture-1.cap"))
# What has names of a method and of a service in its last line.
NAMED = "samples/driver/hello-9/capture-1.cap --interface android.os.IServiceManager"
# The sources of the rows that only lines are made of.
FOR_LINES = "told", "whole", "last_row", "seek"


def lines_of(came: tuple[int, bytes, bytes]) -> tuple[int, list[str]]:
    """A status, and lines; those of standard error come last."""
    status, out, err = came
    return status, (out + err).decode("utf-8").splitlines()


def answer(program: pathlib.Path, *words: object) -> tuple[int, list[str]]:
    """The status of a run at the top of the repository, and its lines."""
    return lines_of(runs.answer([program, *map(str, words)], timeout=120, cwd=ROOT))


def listing(*words: object) -> tuple[int, list[str]]:
    """The same of `./listing`."""
    return lines_of(listed(*words))


# ---- stored listings


def check_stored(program: pathlib.Path, room: pathlib.Path, stored: pathlib.Path, fail: Fail) -> None:
    """A stored listing. Its first line has the command, its last line the status."""
    words, *lines, status = stored.read_text("utf-8").splitlines()
    code, came = listing(*words.split()[1:])
    for number, (one, other) in enumerate(zip(came, lines), 2):
        compare(f"stored/{stored.name}, line {number}", one, other, fail)
    compare(f"stored/{stored.name}", (code, len(came)), (int(status.split()[1]), len(lines)), fail)


def renew_stored(stored: pathlib.Path) -> None:
    """Writes what the command of a stored listing prints now."""
    words, *_ = stored.read_text("utf-8").splitlines()
    code, came = listing(*words.split()[1:])
    renew(stored, "".join(f"{line}\n" for line in (words, *came, f"status {code}")))


# ---- side lists


def check_side(program: pathlib.Path, room: pathlib.Path, capture: pathlib.Path, fail: Fail) -> None:
    """After each line of a stored capture: the time, the ids and the names that the side list has for its frame; also
    if the list has many frames in a line, or some."""
    side = capture.with_name("capture.side")
    text = unpacked(side.read_text("utf-8", errors="surrogateescape"))
    lines = text.splitlines()
    if "after=" in "".join(line for line in lines if " name pid=" in line):
        return
    told, people, names = {}, {}, {}
    for line in lines:
        match line.split(" "):
            case [time, "frame", number]:
                told[number] = time
            case [_, "process", device, process, *_]:
                names.setdefault((device, process), line.split("name=")[1])
            case [_, "thread", device, process, thread, pid, tid, *_]:
                people.setdefault((device, process, thread), f"{pid} {tid} thread={line.split('name=')[1]}")
    due = []
    for line in listing(capture)[1]:
        _, number, *thread = line.split()[:5]
        due.append(f"{line} time={told[number]} {people[tuple(thread)]} process={names[tuple(thread[:2])]}")
    compare(f"--side of {capture}", listing(capture, "--side", side), (0, due), fail)
    for longest in (LONGEST, 40):
        today = room / f"{capture.parent.name}.side"
        today.write_text(packed(text, longest), "utf-8", errors="surrogateescape", newline="\n")
        compare(f"{today.name}, in lines of {longest}", listing(capture, "--side", today), (0, due), fail)


# ---- raw tables


def check_columns(program: pathlib.Path, room: pathlib.Path, fail: Fail) -> None:
    """The rows that listing_tables makes have the columns of the raw tables in schema.sql, by name and in order; those
    that it makes for lines alone are in no table."""
    sources = (ROOT / "crates/listing_tables/src").glob("*.rt")
    made = "".join(path.read_text("utf-8") for path in sources if path.stem not in FOR_LINES)
    named = re.findall(r"columns! \{(.*?)\}", made, re.DOTALL)
    compare("columns", {tuple(re.findall(r"(\w+): ", row)) for row in named},
            set(map(tuple, columns_of_tables().values())), fail)


# ---- malformed captures


# The kinds of fault, in the order of docs/ENVELOPE.md.
FAULTS = ("HeaderShort HeaderMagic HeaderProtocol HeaderReserved FrameShort FrameSequence FrameDirection FrameReserved"
          " FrameLength RecordShort RecordDirection RecordSize AttachShort AttachRecord AttachSize").split()

# What comes before and after a malformed capture among the parts of one.
FIRST_PART = HEADER + write(0, 100, 101, *each(BC_ACQUIRE, 5, 5))
LAST_PART = HEADER_2 + write(MAX_64, 1, 1, ENTER, device=3)


def good_of(part: bytes, kind: str, place: int) -> bytes:
    """What is good of the frames of a part with this fault."""
    if kind.startswith("Header"):
        return b""
    if kind.startswith("Frame"):
        return part[16:place]
    bad = next(one for one in frames_of(part) if one.place < place <= one.end)
    good = part[bad.place + 32:place]
    commands, attached = good[:len(bad.commands)], good[len(bad.commands):]
    return part[16:bad.place] + frame_header(bad.direction, bad.sequence, bad.process, bad.thread, len(commands),
                                             len(attached), bad.device) + good


def check_before_fault(program: pathlib.Path, room: pathlib.Path, fail: Fail) -> None:
    """Of each malformed capture, alone, as the middle part of three, and as the last of two: what comes before its
    fault is a good capture with the same places, whose rows are the same."""
    captures = [path.read_bytes() for path in SMALL]
    asked = [(at, parts) for at, capture in enumerate(captures) for parts in (
        [capture], [FIRST_PART, capture, LAST_PART], [FIRST_PART, capture])]
    kinds = set(runs.at_once(os.cpu_count(), lambda numbered: check_cut(program, room / str(numbered[0]), *numbered[1],
                                                                        fail), enumerate(asked)))
    compare("kinds of fault", sorted(kinds - {None}), sorted((kind, part) for kind in FAULTS for part in (1, 2)), fail)


def check_cut(program: pathlib.Path, room: pathlib.Path, at: int, parts: list[bytes], fail: Fail
              ) -> tuple[str, int] | None:
    """The same of these parts, if they are malformed. Returns the kind of the fault, and its part."""
    files, folder, again, what = [], room / "tables", room / "again", f"{SMALL[at]}, {len(parts)} parts"
    folder.mkdir(parents=True)
    again.mkdir()
    for number, part in enumerate(parts):
        files.append(room / f"{number}.cap")
        files[-1].write_bytes(part)
    status, told = answer(TABLES, "--tables", folder, *files)
    cut = folder / "before-fault.cap"
    compare(f"{what}: is there what comes before a fault", cut.exists(), status == 2, fail)
    if status != 2:
        return None
    _, kind, _, place, *in_part = told[0].split()
    part = int(in_part[-1]) if in_part else 1
    due = HEADER_2 + b"".join(one[16:] for one in parts[:part - 1]) + good_of(parts[part - 1], kind, int(place))
    compare(f"{what}: what comes before {told}", cut.read_bytes(), due, fail)
    compare(f"{what}: is that good", answer(program, "first-fault", cut), (0, ["no malformed record"]), fail)
    compare(f"{what}: its tables", answer(TABLES, "--tables", again, cut), (0, []), fail)
    for path in sorted(again.iterdir()):
        # What is there of the frame with the fault, and what the capture has, differ.
        if path.stem not in ("capture", "frame"):
            compare(f"{what}: the table {path.stem}", path.read_bytes(), (folder / path.name).read_bytes(), fail)
    return kind, part


# ---- words, and files that can't be read


def check_words(program: pathlib.Path, room: pathlib.Path, fail: Fail) -> None:
    capture, script = "samples/reply.cap", ROOT / "listing"
    for words in ("", "--at 48", f"{capture} --at", f"{capture} --at x", f"{capture} --at -1", f"{capture} --at 1_0",
                  f"{capture} --at 18446744073709551616", f"{capture} --code BC_NONE", f"{capture} --proc 1",
                  f"{capture} --files 1", f"{capture} --help", f"{capture} --at 48 --frame 48", f"{capture} --form row",
                  f"{capture} --form tab --objects", f"{capture} --objects --objects", f"{capture} --names --names",
                  f"{capture} --direction up",
                  f"{capture} --flag TF_NONE", f"{capture} --table none"):
        status, (usage, why) = answer(script, *words.split())
        compare(f"words '{words}'", (status, usage.split()[:3], why.split()[0]),
                (64, ["usage:", "./listing", "FILE.."], "listing:"), fail)
    for words in "", capture, f"{capture} --table none", f"--lines --at x {capture}", f"--objects {capture}":
        status, (usage,) = answer(TABLES, *words.split())
        compare(f"{TABLES.name} '{words}'", (status, usage.split()[0]), (64, "usage:"), fail)
    compare("--at=156", listing("--at=0x9c", capture)[1][:1], listing(capture)[1][3:], fail)
    for words in capture, f"{capture} --form tab", "no-such.cap", f"{NAMED} --names", "no-such.cap --names":
        status, told = answer(script, *words.split())
        due_status, due = listing(*words.split())
        compare(f"the script, {words}", (status, told[-1:]), (due_status, due[-1:]), fail)
    compare("a place without a record", listing(capture, "--at", 20)[0], 1, fail)
    compare("a file that is not there", listing("no-such.cap"), (4, ["fault Open"]), fail)
    piped = runs.answer(["sh", "-c", f"cat {capture} | ./listing /dev/stdin"], cwd=ROOT)
    compare("a pipe", lines_of(piped), listing(capture), fail)


def check_errors(program: pathlib.Path, room: pathlib.Path, fail: Fail) -> None:
    """What can't be read is named in one line. What is read more than once can't be a pipe, and nothing waits for
    one. Who reads the lines may have enough, and the disk may be full, whatever lists them."""
    script, capture, pipe = ROOT / "listing", DRIVER / "hello-stuck/capture-1.cap", room / "pipe"
    side, arguments = capture.with_name("capture.side"), ("--at", 5188, "--arguments", "--aidl", "samples/interfaces")
    os.mkfifo(pipe)
    (room / "numbers.side").write_text(f"binder side list 3\n5 frames {2**63} 1 1\n", "utf-8")
    again = (f"listing: {pipe} is a pipe or a device, and is read more than once: write it into a file first, by cat >"
             " FILE")
    folder, absent = f"listing: {room}: Is a directory", "listing: no.cap: No such file or directory"
    for words, due in (
            ((capture, room), (4, [folder, "fault Read"])), ((capture, "--side", room), (4, [folder, "fault Read"])),
            ((capture, "no.cap"), (4, [absent, "fault Open"])), (("no.cap", "--around", 48), (4, [absent])),
            (("no.cap", *arguments), (4, [absent])), ((capture, "--side", pipe, "--last", "2s"), (4, [again])),
            ((pipe, "--around", 48, "--side", side), (4, [again])), ((pipe, *arguments), (4, [again])),
            ((capture, *arguments, "--side", pipe), (4, [again])),
            ((capture, "--side", room / "numbers.side", "--last", "1s"), (0, [])),
            ((capture, "--names", "--aidl", "no.aidl"), (4, ["listing: no.aidl: No such file or directory"]))):
        compare(f"{words}", answer(script, *words), due, fail)
    for words in ((capture, "--form", "tab"), (capture, *arguments)):
        with subprocess.Popen([script, *map(str, words)], cwd=ROOT, stdout=subprocess.PIPE, stderr=subprocess.PIPE
                              ) as ended:
            assert ended.stdout and ended.stderr
            ended.stdout.close()
            compare(f"{words}, a closed pipe", (ended.stderr.read(), ended.wait(60)), (b"", 0), fail)
        with open("/dev/full", "w", encoding="utf-8") as full:
            status, _, err = runs.answer([script, *map(str, words)], cwd=ROOT, stdout=full)
        compare(f"{words}, a full device", (status, err.count(b"\n")), (4, 1), fail)


PARTS = [
    *(Part(f"stored/{stored.name}", check_stored, (stored,)) for stored in STORED),
    *(Part(f"side/{capture.parent.name}", check_side, (capture,)) for capture in CAPTURES),
    *parts_of(check_before_fault, check_columns, check_words, check_errors)]


def judge(given: argparse.Namespace, room: pathlib.Path, fail: Fail) -> None:
    named = [part for part in PARTS if part.name in given.cases]
    if given.print:
        for part in named:
            if part.play == check_stored:
                renew_stored(*part.given)
    else:
        play(named, given.programs[0], room, fail)


if __name__ == "__main__":
    check(judge, lambda: [part.name for part in PARTS], print=FLAG)
