"""What `view` and `listing` show of a time, by --last, --between and --around, and `view` of a process."""

import os
import pathlib
import re
import shutil

from checks.kit.checking import Fail, compare
from checks.kit.runs import answer
from checks.kit.side_lists import packed
from checks.viewer.page.common import stored, texts_of, timeline_of, view
from checks.viewer.page.moments import SECOND, ZONE, clock_of

# Of hello-stuck: the first frame, the call that hangs from 2.288 s on, and the one that waits for it from 3.080 s on;
# the last frame is 198, and the recording ends 5.713 s after the first frame. Both callers end before that.
WALL = 1795829816129412140 - 442801680412 + 442941067552
STUCK, WAITS = "calls that keep a pool busy", "calls without an answer"

# The words, and the groups that are no normal ones; the frames of the listing, and how many calls the page has.
WINDOWS = (
    (("--last", "2.5s"), [STUCK, WAITS], (199, 198), 2),
    (("--last", "2633ms"), [STUCK, WAITS], (198, 198), 2),
    (("--last", "10ms"), [], (199, 198), 0),
    (("--between", "+2.241", "+2.2464"), [], (145, 150), 1),
    (("--between", "+2.5s", "+2.6s"), [STUCK], (179, 178), 1),
    (("--between", clock_of(WALL + 2 * SECOND), clock_of(WALL + 3 * SECOND)), [STUCK], None, None),
    (("--last", "999999999h"), [STUCK, WAITS], (1, 198), 21),
    (("--between", "+0", "+999999999"), [STUCK, WAITS], (1, 198), 21),
    (("--between", "0001-01-01 00:00", "9999-12-31 23:59:59.999999999"), [STUCK, WAITS], (1, 198), 21),
    (("--around", 16172), [STUCK, WAITS], (30, 198), None),
    (("--around", 18140), [STUCK, WAITS], None, None))

# What is asked for and not there, and why.
WRONG = ((("--last", "5"), 64), (("--between", "25:00", "26:00"), 64), (("--between", "+3", "+2"), 1),
         (("--between", "+7", "+8"), 1), (("--around", 18304), 1), (("--around", "x"), 64),
         (("--last", "1s", "--around", 16), 64))

# Of leaks: the words; the groups that are no normal ones; what the last line says of the frames; how many calls the
# page has, and how many rows of who talks to whom.
PROCESSES = (
    (("service",), ["received transactions never freed", "calls without an answer"],
     " of service 176: 21 frames, 1 call, nothing lost;", 6, 4),
    (("client 177",), ["references taken more than once"], " of client 177: 14 frames, 5 calls, nothing lost;", 5, 3),
    ((177,), ["references taken more than once"], " of client 177: 14 frames, 5 calls, nothing lost;", 5, 3),
    (("short",), ["calls that failed"], " of short-lived 174: 6 frames, 1 call, nothing lost;", 2, 2),
    (("service", "--between", "+0.05", "+0.12"), ["received transactions never freed", "calls without an answer"],
     " then of service 176: 21 frames, 1 call under way, nothing lost;", None, None))


def frames_of(folder: pathlib.Path, room: pathlib.Path, *words: object) -> list[int]:
    _, said, _ = answer([folder / "listing", *map(str, words), "--form", "tab"], cwd=room, encoding="utf-8",
                        env={**os.environ, **ZONE})
    return [int(line.split("\t")[1]) for line in said.splitlines()]


def groups_in(folder: pathlib.Path, room: pathlib.Path, *words: object) -> list[str]:
    _, said, _ = answer([folder / "view", *map(str, words), "--groups"], cwd=room, encoding="utf-8",
                        env={**os.environ, **ZONE})
    return [line.split("\t")[1] for line in said.splitlines() if not line.startswith("normal")]


def last_line(folder: pathlib.Path, room: pathlib.Path, *words: object) -> str:
    """What --groups says at the end."""
    return answer([folder / "view", *map(str, words), "--groups"], cwd=room, encoding="utf-8")[2].splitlines()[-1]


def check_windows(folder: pathlib.Path, room: pathlib.Path, fail: Fail) -> None:
    """Groups, calls, timeline and listing have what was then."""
    capture = stored("hello-stuck")
    every = frames_of(folder, room, *capture)
    for number, (words, groups, frames, calls) in enumerate(WINDOWS):
        compare(f"{words}, groups", groups_in(folder, room, *capture, *words), groups, fail)
        if frames is not None:
            compare(f"{words}, the listing", frames_of(folder, room, *capture, *words),
                    [seq for seq in every if frames[0] <= seq <= frames[1]], fail)
        if calls is not None:
            answer([folder / "view", *map(str, (*capture, *words)), "-o", f"{number}.html", "--trace",
                    f"{number}.json.gz"], cwd=room, env={**os.environ, **ZONE})
            rows = (room / f"{number}.html").read_text("utf-8").partition('aria-label="calls"')[2]
            compare(f"{words}, calls of the page", rows.partition("</table>")[0].count("\n<tr"), calls, fail)
            compare(f"{words}, what the page says", "Shown are the groups and the calls from" in
                    texts_of(room / f"{number}.html"), True, fail)
            drawn = timeline_of(room / f"{number}.json.gz")["traceEvents"]
            seqs = {event["args"]["seq"] for event in drawn if "seq" in event.get("args", {})}
            compare(f"{words}, frames of the timeline", [seq for seq in seqs if frames and seq > frames[1]], [], fail)
    for words, due in WRONG:
        for program in ("view", "listing"):
            status, said, told = answer([folder / program, *map(str, (*capture, *words)),
                                         *(["--groups"] if program == "view" else [])], cwd=room, encoding="utf-8")
            compare(f"{program} {words}", (status, said, bool(re.search(f"^{program}: ", told, re.MULTILINE))),
                    (due, "", True), fail)
    for words, due in (("--last", "999999999h"), ["0.000 s"]), (("--slow", "999999999h"), []):
        came = view(folder, room, *capture, *words, "-o", "long.html")
        compare(f"view {words}", came, (0, "", ""), fail)
        compare(f"{words}, since when the page shows calls",
                re.findall(r"calls from (\S+ s) ", texts_of(room / "long.html")), due, fail)
    check_packed_windows(folder, room, fail)
    check_untimed_windows(folder, room, fail)
    check_processes(folder, room, fail)


def check_processes(folder: pathlib.Path, room: pathlib.Path, fail: Fail) -> None:
    """Groups, calls, tables and timeline have what a process has or causes. Of a lost frame the line says whose it may
    be."""
    capture = stored("leaks")
    for (process, *words), groups, told, calls, talks in PROCESSES:
        given = *capture, "--process", process, *words
        compare(f"{given[3:]}, groups", groups_in(folder, room, *given), groups, fail)
        compare(f"{given[3:]}, the last line", told in last_line(folder, room, *given), True, fail)
        if calls is not None:
            view(folder, room, *given, "-o", "of.html", "--trace", "of.json.gz")
            text = (room / "of.html").read_text("utf-8")
            for table, due in (("calls", calls), ("who talks to whom", talks)):
                rows = text.partition(f'aria-label="{table}"')[2].partition("</table>")[0].count("\n<tr")
                compare(f"{given[3:]}, {table} of the page", rows, due, fail)
            drawn = {event["pid"] for event in timeline_of(room / "of.json.gz")["traceEvents"]
                     if "seq" in event.get("args", {})}
            compare(f"{given[3:]}, processes of the timeline", len(drawn), 1, fail)
            (room / "of.json.gz").unlink()
    told = last_line(folder, room, *stored("gaps"), "--process", "noisy")
    compare("what may be lost of a process", " of noisy 1999: 127 frames, 62 calls, 615 frames lost that may be of it;"
            in told, True, fail)
    compare("a process that is not there", view(folder, room, *capture, "--process", "nobody", "--groups"),
            (1, "", "view: --process: the capture has no process nobody\n"), fail)


def check_packed_windows(folder: pathlib.Path, room: pathlib.Path, fail: Fail) -> None:
    """The frames of a time are the same if the side list has many frames in a line."""
    capture, _, side = stored("hello-stuck")
    (room / "today.side").write_text(packed(side.read_text("utf-8")), "utf-8")
    for words, *_ in WINDOWS:
        due, came = (answer([folder / "listing", f"--side={one}", *map(str, words), "--", capture],
                            cwd=room, encoding="utf-8", env={**os.environ, **ZONE}) for one in (side, "today.side"))
        compare(f"{words}, frames by lines of many frames", (came, came[0]), (due, 0), fail)


def check_untimed_windows(folder: pathlib.Path, room: pathlib.Path, fail: Fail) -> None:
    """Without a side list there are frames around a place, and no times."""
    shutil.copy(stored("hello-stuck")[0], room / "bare.cap")
    for program in ("view", "listing"):
        _, _, told = answer([folder / program, "bare.cap", "--last", "5s"], cwd=room, encoding="utf-8")
        compare(f"{program} --last without a side list", told,
                f"{program}: --last takes the times of a side list, and there are none\n", fail)
    compare("the listing around a place, without a side list", frames_of(folder, room, "bare.cap", "--around", 8036),
            [seq for seq in frames_of(folder, room, "bare.cap") if seq <= 187], fail)
    status, said, _ = view(folder, room, "bare.cap", "--around", 16172, "--groups")
    compare("groups around a place, without a side list", (status, WAITS in said), (0, True), fail)
