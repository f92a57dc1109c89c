"""Compares the built program with a plain second reading, on captures that are cut or changed, and on parts.

    checks/run changes [-- [--table] [PROGRAM..]]

The lines of crates/audit_changes/stdin say how the captures are made; that crate's README.md explains the lines. A
program is run on each different capture, with two workers and pieces of one frame. Its status and its output must be,
byte for byte, what kit/second_reading.py says. Before that the second reading is compared with what is stored in that
crate: the answer in each line, and in `stdout` the numbers of captures and of reports.

Each capture of crates/audit_cases is also cut into parts: between frames, into two, three and as many as it has frames,
with file headers of either version; and into parts that are no capture together, for example by a cut within a frame. A
program is run on the files of each different list of parts, for the report with one to seven workers and pieces of one
to 256 frames, and for every second list also for the first fault. Before that the second reading is compared with
itself: a capture that is cut between frames has the answer of the whole capture, and a fault has its place in the part.

And a program is run on captures of twenty frames, for each two of which there is one with a fault in these two, and on
captures with a fault of a header beside one of a record: each with 1, 3 and 64 workers and pieces of 1, 3 and 20
frames. Before that the second reading is compared with the place of the first fault.

With --table it prints how many captures are made of each file.
"""

import os
import subprocess
from typing import NamedTuple

from checks.kit import captures
from checks.kit.captures import changed, loopers
from checks.kit.checking import FLAG, check, row
from checks.kit.frames import frames_of
from checks.kit.programs import CASES, ROOT
from checks.kit.runs import answer, as_answer, at_once, report_by
from checks.kit.second_reading import reading, reading_of_parts

CRATE = ROOT / "crates/audit_changes"

# The files that must be cut at every place and changed in every byte, and their lengths.
WHOLE = {"reply.cap": 224, "attachment.cap": 160, "refused-oneway.cap": 356, "bad-object.cap": 164,
         "unknown-flags.cap": 116, "two-devices.cap": 248}

# The bytes of a file header, and the magics of the two versions.
HEADER = len(captures.HEADER)
MAGICS = captures.HEADER[:8], captures.HEADER_2[:8]

# The most files of a capture; and the workers and the piece with which reports on parts are made, in turn.
MOST_PARTS = 256
MANNERS = (1, 256), (2, 1), (7, 1), (3, 2), (4, 256)


class Case(NamedTuple):
    line: str
    file: str
    change: str
    capture: bytes


def captures_of(words, whole):
    """The captures that a line makes of a file, and what is changed in each."""
    match words:
        case ["cut", _, first, last, _]:
            for length in range(int(first), int(last) + 1):
                yield f"cut at {length}", whole[:length]
        case ["change", _, at, value, _]:
            yield f"number {at} to {value}", changed(whole, (int(at), captures.u32(int(value, 0))))
        case ["every", _]:
            for length in range(len(whole)):
                yield f"cut at {length}", whole[:length]
            for at, byte in enumerate(whole):
                for value in 0, 0xFF, (byte + 1) % 256:
                    yield f"byte {at} to 0x{value:02x}", changed(whole, (at, bytes([value])))


def all_cases():
    cases = []
    for line in (CRATE / "stdin").read_text("utf-8").splitlines():
        words = line.split("\t")
        whole = (CRATE / "data" / words[1]).read_bytes()
        cases += [Case(line, words[1], *made) for made in captures_of(words, whole)]
    return cases


def told(due):
    """An answer in the words of `stdin`."""
    status, lines = due
    return lines[0] if status else "report " + lines[1].split()[1]


def judge_lines(cases, due, fail):
    """Compares the second reading with the stored answers and numbers, and the cases with WHOLE."""
    wanted = []
    for line in dict.fromkeys(case.line for case in cases):
        answers = [due[case.capture] for case in cases if case.line == line]
        words = line.split("\t")
        if words[0] != "every" and any(told(answer) != words[-1] for answer in answers):
            fail(f"{line}: not the answer of the second reading")
        reports = sum(status == 0 for status, _ in answers)
        wanted += [f"> {line}", f"captures {len(answers)} reports {reports}"]
    stored = (CRATE / "stdout").read_text("utf-8").splitlines()
    for line in [line for line, other in zip(wanted, stored) if line != other][:1]:
        fail(f"crates/audit_changes/stdout: not '{line}'")
    if len(stored) != len(wanted):
        fail(f"crates/audit_changes/stdout: {len(stored)} lines and not {len(wanted)}")
    for file, length in WHOLE.items():
        judged = sum(case.line == f"every\t{file}" for case in cases)
        if judged < 4 * length:
            fail(f"{file}: {judged} captures and not {4 * length}")


def judge_program(program, first, due, fail):
    """Runs a program on each different capture, and compares its answers with the second reading."""
    words = [program, *report_by(2, 1), "/dev/stdin"]
    answers = at_once(os.cpu_count(), lambda capture: answer(words, timeout=60, input=capture), first)
    for (capture, case), answered in zip(first.items(), answers):
        if answered != as_answer(*due[capture]):
            fail(f"{program}: {case.file}, {case.change}: not the answer of the second reading")


# ---- captures in parts


class Joined(NamedTuple):
    """A capture in parts."""
    file: str
    change: str
    parts: tuple
    cuts: tuple | None  # where the capture is cut, if its answer must be that of the whole capture


def frame_ends(whole):
    """Where a capture may be cut into parts: after its file header, and after each frame, as far as the lengths of
    frames show."""
    return [HEADER, *(frame.end for frame in frames_of(whole))] if len(whole) >= HEADER else []


def spread(things, most):
    """At most this many of these, evenly spaced, with the first and the last."""
    if len(things) <= most:
        return things
    return [things[at * (len(things) - 1) // (most - 1)] for at in range(most)]


def parts_at(whole, cuts, magic):
    """The parts of a capture that is cut there. The later ones begin with its file header, but with this magic."""
    header = magic + whole[8:HEADER]
    places = [*cuts, len(whole)]
    return (whole[:places[0]], *(header + whole[first:end] for first, end in zip(places, places[1:])))


def cut_at_frames(whole):
    """The parts of a capture that is cut between frames; and where it is cut, if the answer must be the whole one's."""
    ends, own = frame_ends(whole), whole[:8]
    cuts = [(end,) for end in spread(ends, 8)]
    cuts += spread(list(zip(ends, ends[1:])), 5) + [(end, end) for end in spread(ends, 2)]
    if len(ends) > 3:
        cuts.append(tuple(spread(ends[1:-1], MOST_PARTS - 1)))
    good = reading(whole)[0] == 0
    for magic in dict.fromkeys([own, *MAGICS]):
        for places in cuts:
            same = magic == own or good and magic == MAGICS[1]
            at = " and ".join(map(str, places[:3])) + (" and so on" if len(places) > 3 else "")
            yield f"at {at}, then {magic}", parts_at(whole, places, magic), places if same else None


def broken(whole):
    """Parts that are no capture together, or a capture with frames missing."""
    ends = frame_ends(whole)
    header = whole[:HEADER]
    for end in spread(ends, 4):
        for within in 1, 20, 33, 40:
            if end + within < len(whole):
                yield f"at {end + within}, within a frame", parts_at(whole, (end + within,), whole[:8])
    for places in spread(list(zip(ends, ends[1:])), 4):
        first, second, third = parts_at(whole, places, whole[:8])
        yield f"a lost file from {places[0]} to {places[1]}", (first, third)
        yield f"at {places[0]} and {places[1]}, the last two turned", (first, third, second)
        yield f"at {places[0]} and {places[1]}, the second twice", (first, second, second, third)
    for end in ends[len(ends) // 2:][:1]:
        first, second = parts_at(whole, (end,), whole[:8])
        yield f"at {end}, turned", (second, first)
        for name, other in [("no bytes", b""), ("15 bytes", header[:15]), ("another magic", b"BNDRCAP3" + header[8:]),
                            ("another protocol", header[:8] + b"\7" + header[9:]),
                            ("no zeros", header[:15] + b"\1"), ("one byte more", header + b"\0")]:
            yield f"at {end}, a part of {name} between", (first, other, second)
            yield f"at {end}, a part of {name} after", (first, second, other)
            yield f"at {end}, a part of {name} before", (other, first, second)
    yield "twice", (whole, whole)


def all_joined():
    """For each different list of parts, the first capture that gives it."""
    joined = {}
    for file in sorted(CASES.iterdir()):
        whole = file.read_bytes()
        made = list(cut_at_frames(whole)) + [(*case, None) for case in broken(whole)]
        for change, parts, cuts in made:
            joined.setdefault(parts, Joined(file.name, change, parts, cuts))
    return list(joined.values())


def answer_in_part(answer, cuts):
    """What the answer to a whole capture becomes if the capture is cut there."""
    status, lines = answer
    if status == 0:
        return answer
    _, kind, _, place = lines[0].split()
    before = [cut for cut in cuts if cut <= int(place)]
    in_part = int(place) - (before[-1] - HEADER if before else 0)
    return status, [f"malformed {kind} at {in_part} in part {len(before) + 1}"]


def judge_joined(joined, due, fail):
    """Compares the second reading of parts that are cut between frames with that of the whole capture."""
    for case in joined:
        if case.cuts is not None:
            whole = b"".join([case.parts[0], *(part[HEADER:] for part in case.parts[1:])])
            if due[case.parts] != answer_in_part(reading(whole), case.cuts):
                fail(f"{case.file}, {case.change}: not the answer to the whole capture")


def judge_program_on_parts(program, joined, due, files, fail):
    """Runs a program on the files of each list of parts, and compares its answers with the second reading."""

    def differs(numbered):
        index, case = numbered
        names = [files[part] for part in case.parts]
        asked = [report_by(*MANNERS[index % len(MANNERS)]), *([["first-fault"]] if index % 2 else [])]
        return [" ".join(words) for words, wanted in zip(asked, due[case.parts])
                if answer([program, *words, *names], timeout=60, stdin=subprocess.DEVNULL) != as_answer(*wanted)]

    for case, wrong in zip(joined, at_once(os.cpu_count(), differs, enumerate(joined))):
        for words in wrong:
            fail(f"{program}: {words} of {case.file}, {case.change}: not the answer of the second reading")


def judge_parts(programs, room, fail):
    joined = all_joined()
    due = {case.parts: (reading_of_parts(case.parts), reading_of_parts(case.parts, True)) for case in joined}
    judge_joined(joined, {parts: report for parts, (report, _) in due.items()}, fail)
    files = {}
    for part in dict.fromkeys(part for case in joined for part in case.parts):
        files[part] = room / str(len(files))
        files[part].write_bytes(part)
    for program in programs:
        judge_program_on_parts(program, joined, due, files, fail)


# ---- captures with two faults


def two_faults():
    """Each of these captures, what is wrong in it, and the line of its first fault. A frame of `loopers` has 36 bytes,
    and its record is the last four."""
    for first in range(1, 21):
        for second in range(first, 21):
            line = f"malformed RecordDirection at {16 + 36 * first - 4}"
            yield loopers(20, wrong=(first, second)), f"faults in frames {first} and {second} of 20", line
    for wrong, line in (3, "malformed FrameDirection at 52"), (1, "malformed RecordDirection at 48"):
        capture = changed(loopers(3, wrong=(wrong,)), (68, b"\3"))
        yield capture, f"a fault in the header of frame 2 and one in frame {wrong}", line


def judge_two_faults(programs, fail):
    """Runs each program on them, with different workers and pieces."""
    runs = [(*made, [program, *report_by(workers, piece), "/dev/stdin"]) for made in two_faults()
            for program in programs for workers in (1, 3, 64) for piece in (1, 3, 20)]
    for capture, what, line in two_faults():
        if reading(capture) != (2, [line]):
            fail(f"{what}: the second reading does not say '{line}'")
    answers = at_once(os.cpu_count(), lambda run: answer(run[3], timeout=60, input=run[0]), runs)
    for (_, what, line, words), answered in zip(runs, answers):
        if answered != as_answer(2, [line]):
            fail(f"{' '.join(map(str, words))}: {what}: not '{line}'")


# ---- the table, and the command line


def print_table(cases, due):
    for file in dict.fromkeys(case.file for case in cases):
        own = [case for case in cases if case.file == file]
        reports = sum(due[case.capture][0] == 0 for case in own)
        different = len({case.capture for case in own})
        row(f"`{file}`", (CRATE / "data" / file).stat().st_size, len(own), different, reports, len(own) - reports)


def judge(given, room, fail):
    cases = all_cases()
    first = {}
    for case in cases:
        first.setdefault(case.capture, case)
    due = {capture: reading(capture) for capture in first}
    judge_lines(cases, due, fail)
    for program in given.programs:
        judge_program(program, first, due, fail)
    judge_parts(given.programs, room, fail)
    judge_two_faults(given.programs, fail)
    if given.table:
        print_table(cases, due)


if __name__ == "__main__":
    check(judge, table=FLAG)
