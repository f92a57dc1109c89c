"""The files that `view` reads, which may be malformed, foreign, odd or changed meanwhile; and pages, which are whole or
not there."""

import contextlib
import fcntl
import os
import pathlib
import re
import shutil
import struct
import subprocess
import sys
import termios
from typing import NamedTuple

from checks.kit.checking import Fail, compare
from checks.kit.frames import frames_of
from checks.kit.programs import DRIVER, ROOT
from checks.kit.runs import answer
from checks.viewer.page.common import stored, view, without_end
from viewer.malformed import MEANINGS

CAPTURE = DRIVER / "gaps/capture-1.cap"

# ---- malformed captures


def make_malformed(room: pathlib.Path) -> list[tuple[str, ...]]:
    """A bad capture, one that is cut within a frame, files that are no captures, and bad second parts."""
    whole = (DRIVER / "threads/capture-1.cap").read_bytes()
    frames = frames_of(whole)
    middle = frames[len(frames) // 2][0]
    bad = bytearray(whole[:16] + whole[middle:])
    bad[51] ^= 0xc0  # the direction in the first code word
    for name, data in (("first.cap", whole[:middle]), ("bad.cap", bad), ("cut.cap", whole[:middle + 40]),
                       ("text.txt", b"a text of more than 16 bytes"), ("empty.cap", b"")):
        (room / name).write_bytes(data)
    return [("bad.cap",), ("cut.cap",), ("text.txt",), ("empty.cap",), (str(DRIVER / "threads/capture.side"),),
            ("first.cap", "bad.cap"), ("first.cap", "text.txt"), ("first.cap", "first.cap")]


def fault_of_page(path: pathlib.Path) -> str:
    """What the page of a malformed capture begins with, without markup."""
    text = path.read_text("utf-8") if path.exists() else ""
    return re.sub("<[^>]*>", "", text.partition('<p class="fault">')[2].partition("</p>")[0])


def check_malformed(folder: pathlib.Path, room: pathlib.Path, fail: Fail) -> None:
    """The page and standard error have the line of the first fault, the file that has it, and what that means."""
    made, stored_ones = make_malformed(room), [(str(path),) for path in sorted(ROOT.glob("samples/*.cap"))]
    for number, files in enumerate(made + stored_ones):
        ended = subprocess.run([folder / "audit", "report", *files], cwd=room, capture_output=True, encoding="utf-8")
        if ended.returncode == 0 and files in stored_ones:
            continue
        line, shown = ended.stdout.strip(), room / f"malformed-{number}.html"
        part = re.search(r"in part (\d+)", line)
        file = files[int(part[1]) - 1 if part else 0]
        status, said, told = view(folder, room, *files, "-o", shown)
        compare(f"{files}: status, and whether standard error has the fault",
                (status, said, told.startswith(f"view: {line}: {file} ")), (2, "", True), fail)
        compare(f"{files}: what its page begins with", fault_of_page(shown),
                f"{told.removeprefix('view: ').strip().replace(file, os.path.basename(file))}.", fail)
    check_malformed_lines(folder, room, fail)
    kinds = re.findall(r"^ {4,5}\d+  ([A-Z]\w+) ", (ROOT / "docs/ENVELOPE.md").read_text("utf-8"), re.MULTILINE)
    compare("kinds of faults that have a meaning", sorted(MEANINGS), sorted(kinds), fail)


def check_malformed_lines(folder: pathlib.Path, room: pathlib.Path, fail: Fail) -> None:
    """The first line of --groups and --against names the fault and is no group, and --fail-on lets nothing pass."""
    for files, kind in (("text.txt",), "HeaderMagic"), (("first.cap", "bad.cap"), "RecordDirection"):
        status, said, _ = view(folder, room, *files, "--groups", "--fail-on", "real", "--database", f"{kind}.db")
        lines = [line.split("\t") for line in said.splitlines()]
        compare(f"{files}: status, and how many fields a line has", (status, {len(line) for line in lines}), (2, {11}),
                fail)
        compare(f"{files}: the first line of --groups", lines[0][:8] + lines[0][9:],
                ["malformed", kind, "-", "-", "-", "-", files[-1], "-", "-", "-"], fail)
    status, said, told = view(folder, room, "cut.cap", "--against", "RecordDirection.db", "--fail-on", "real")
    compare("a malformed capture against another: status, and the first line",
            (status, said.partition("\n")[0].split("\t")[:7]),
            (2, ["malformed", "-", "-", "-", "FrameLength", "-", "cut.cap"]), fail)
    compare("a malformed capture against another: standard error", [line.split(": malformed ")[0] for line in
                                                                    told.splitlines()],
            ["view", "view: RecordDirection.db has only what comes before a fault"], fail)


# ---- files that are no files, and names


def check_pipes(folder: pathlib.Path, room: pathlib.Path, fail: Fail) -> None:
    """What can't be read more than once is refused in a line, and a file by whatever name is read."""
    os.mkfifo(room / "pipe")
    shutil.copy(CAPTURE, room / "good.cap")
    pipe = " is a pipe or a device, and is read more than once: write it into a file first, by cat > FILE\n"
    named = " is a pipe: write it into a file first, by cat > FILE\n"
    for words, told in ((("pipe",), pipe), (("good.cap", "--side", "pipe"), pipe),
                        (("good.cap", "--against", "pipe"), pipe), (("/dev/stdin",), pipe),
                        (("good.cap", "--methods", "pipe"), named),
                        (("good.cap", "--fail-on", "real", "--known", "pipe"), named),
                        ((".",), " is a folder, and not a file\n")):
        came = subprocess.run([folder / "view", *words, "--groups"], cwd=room, capture_output=True, input="",
                              encoding="utf-8", timeout=60)
        compare(f"{words}", (came.returncode, came.stdout, came.stderr), (4, "", f"view: {words[-1]}{told}"), fail)
    due = view(folder, room, "good.cap", "--groups")
    with open(room / "good.cap", "rb") as file:
        came = answer([folder / "view", "/dev/stdin", "--groups"], cwd=room, stdin=file, encoding="utf-8")
    compare("a file as standard input", came, due, fail)


# Names of files, and how a shell may be given them.
NAMES = {b"-d.cap": "./-d.cap", b"a\xff b.cap": r"$'a\xff b.cap'"}


def check_names(folder: pathlib.Path, room: pathlib.Path, fail: Fail) -> None:
    """A capture may be called as it likes. The commands on its page are right for a shell."""
    shutil.copyfile(CAPTURE, room / "-x.cap")
    compare("a name that begins with a dash, without --", view(folder, room, "-x.cap")[2].splitlines()[-1],
            "view: -x.cap is taken for an option; as a file it is ./-x.cap", fail)
    for name, word in NAMES.items():
        shutil.copyfile(CAPTURE, os.path.join(os.fsencode(room), name))
        came = answer([folder / "view", "-o", "named.html", "--", name], cwd=room, encoding="utf-8")
        compare(f"{name!r}", without_end(came), (0, "", ""), fail)
        text = re.sub("&#39;", "'", (room / "named.html").read_text("utf-8"))
        compare(f"{name!r}: the command on its page", f"./audit report {word} writes" in re.sub("<[^>]*>", "", text),
                True, fail)
        (room / "named.html").unlink()


# ---- a capture that changes


def changing(folder: pathlib.Path, room: pathlib.Path, how: str) -> pathlib.Path:
    """The folder of programs, with a listing that does something to the capture and goes on."""
    made = shutil.copytree(folder, room / "changing", symlinks=True)
    listing = made / "crates/binder_tables/out/binder_tables"
    built = listing.resolve()
    listing.unlink()
    listing.write_text(f'#!/bin/sh\n{how}\nexec {built} "$@"\n', "utf-8")
    listing.chmod(0o755)
    return made


def check_changing(folder: pathlib.Path, room: pathlib.Path, fail: Fail) -> None:
    """A capture that grows, or is replaced, between the two programs that read it has no answer but a line."""
    capture, other = CAPTURE.read_bytes(), DRIVER / "threads/capture-1.cap"
    due = "view: c.cap changed while it was read: end what writes it, or make a copy and read that\n"
    for how in ("head -c 100 c.cap >more; cat more >>c.cap", f"cp {other} n.cap; mv n.cap c.cap"):
        (room / "c.cap").write_bytes(capture)
        made = changing(folder, room, how)
        compare(f"a capture after {how}", view(made, room, "c.cap", "--groups"), (4, "", due), fail)
        shutil.rmtree(made)


# ---- a page is whole or not there


def check_again(folder: pathlib.Path, room: pathlib.Path, fail: Fail) -> None:
    """A page replaces an earlier one of its capture, and nothing else."""
    for name in "<a & 'b'>.cap", "other.cap":
        shutil.copy(CAPTURE, room / name)
    own, page = room / "<a & 'b'>.cap", room / "<a & 'b'>.cap.html"
    made = []
    for _ in range(2):
        compare("a page, and the same again", view(folder, room, own.name), (0, "", ""), fail)
        made.append((page.stat().st_ino, page.read_bytes()))
    compare("whether a page is a new one, and the same", (made[0][0] != made[1][0], made[0][1] == made[1][1]),
            (True, True), fail)
    (room / "text.html").write_text("<!doctype html>\n<title>mine</title>", "utf-8")
    (room / "link.html").symlink_to(page.name)
    for words in (("other.cap", "-o", page.name), (own.name, "-o", "text.html"), (own.name, "-o", "link.html"),
                  (own.name, "-o", own.name), (own.name, "-o", ".")):
        told = f"view: {words[2]} exists already, and is no page of {words[0]}: name another file by -o\n"
        compare(f"{words}", view(folder, room, *words), (1, "", told), fail)
    compare("the page after these", page.read_bytes(), made[1][1], fail)


def at_terminal(words: list, room: pathlib.Path, columns: int) -> str:
    """What a program writes whose standard output and standard error are a terminal so wide."""
    at, terminal = os.openpty()
    fcntl.ioctl(terminal, termios.TIOCSWINSZ, struct.pack("HHHH", 40, columns, 0, 0))
    without = {name: value for name, value in os.environ.items() if name not in ("COLUMNS", "LINES")} | {"TZ": "UTC"}
    with subprocess.Popen(words, cwd=room, stdout=terminal, stderr=terminal, env=without):
        os.close(terminal)
        said = b""
        with contextlib.suppress(OSError):  # the terminal has ended
            while piece := os.read(at, 1 << 16):
                said += piece
    os.close(at)
    return re.sub(r"[^\n]*\x1b\[K", "", said.decode().replace("\r\n", "\n"))


END = "0 real, 5 maybe, 4 others; 85 frames, none missing\n"


def check_terminal(folder: pathlib.Path, room: pathlib.Path, fail: Fail) -> None:
    """A line says at the end what a page has. At a terminal --groups prints columns of what is real or maybe, in lines
    that are no longer than the terminal is wide, and with --all of all; through a pipe its lines of fields, and no
    other line."""
    words = [folder / "view", *stored("leaks")]
    _, said, told = answer([*words, "-o", "page.html"], cwd=room, encoding="utf-8")
    compare("what is said of a page", (said, told), ("", f"view: page.html: {END}"), fail)
    compare("what is said of a page at a terminal", at_terminal([*words, "-o", "page.html"], room, 80),
            f"view: page.html: {END}", fail)
    _, fields, told = answer([*words, "--groups"], cwd=room, encoding="utf-8")
    compare("lines of fields through a pipe", ({line.count("\t") for line in fields.splitlines()}, told), ({10}, ""),
            fail)
    for columns in (80, 130):
        table = at_terminal([*words, "--groups"], room, columns)
        heads, *lines = table.splitlines()
        compare(f"{columns} columns, the heads", heads.split(), ["verdict", "n", "what", "who", "at", "UTC"], fail)
        compare(f"{columns} columns, the groups", [line.split()[0] for line in lines if line[:1] not in " 4v"],
                ["maybe"] * 5, fail)
        at = heads.index("who")
        compare(f"{columns} columns, who", [line[at:].split()[0] for line in lines if line.startswith("maybe")],
                ["deaf-watcher", "client", "service", "hasty-watcher", "service"], fail)
        compare(f"{columns} columns, longer texts", [line for line in lines if line[:1] == " " and len(line) > columns],
                [], fail)
        compare(f"{columns} columns, a sentence and the end", (" ".join(table.split()).count(
            "code 2 at service 176 node 0x1000 Its thread went on with other work. (U4) Look at what the thread did"),
            table.endswith(f"view: capture-1.cap: {END}")), (1, True), fail)
    whole = answer([*words, "--groups", "--columns", "--all"], cwd=room, encoding="utf-8")[1]
    compare("all groups in columns", [line.split()[0] for line in whole.splitlines()[1:] if line[:1] != " "],
            ["maybe"] * 5 + ["explained"] + ["normal"] * 3, fail)
    _, said, _ = answer([folder / "view", *stored("hello-11"), "--groups", "--columns"], cwd=room, encoding="utf-8")
    compare("columns without a finding", said.splitlines(), [
        "No group is real or maybe. This does not show that nothing is wrong.",
        "8 groups explained or normal: --all shows them."], fail)
    for more in ("--columns",), ("--all",), ("--no-side", "--side", "x"):
        compare(f"{more} and no --groups", answer([*words, *more], cwd=room)[0], 64, fail)


def check_beside(folder: pathlib.Path, room: pathlib.Path, fail: Fail) -> None:
    """The side list that lies beside a capture by its name is taken, and a line says so."""
    capture, _, side = stored("hello-stuck")
    for cap, lists in (("a.cap", ["a.side"]), ("b-1.cap", ["b.side"]), ("c-1.cap", ["c-1.side"]), ("d.cap", []),
                       ("e-1.cap", ["e-2.side"]), ("f", ["f.side"])):
        shutil.copy(capture, room / cap)
        for one in lists:
            shutil.copy(side, room / one)
        taken = lists if cap[0] in "abc" else []
        due = [f"view: takes {taken[0]} beside the capture; --no-side leaves it out"] if taken else []
        _, said, told = view(folder, room, cap, "--groups")
        compare(f"{cap} beside {lists}", (told.splitlines()[:1], "real\t" in said), (due, bool(taken)), fail)
        _, said, told = view(folder, room, cap, "--groups", "--no-side")
        compare(f"{cap} beside {lists}, without it", (told, "real\t" in said), ("", False), fail)
    shutil.copy(stored("leaks")[2], room / "d.side")
    status, _, told = view(folder, room, "d.cap", "--groups")
    compare("a side list of another capture beside it", (status, told.splitlines()[0], told.count("\n")),
            (1, "view: takes d.side beside the capture; --no-side leaves it out", 2), fail)


class End(NamedTuple):
    """How a page that is being written ends: what Python does then, and what the program answers."""
    name: str
    does: str
    answer: tuple[int, str, str]


ENDS = (End("a full disk", "raise OSError(errno.ENOSPC, os.strerror(errno.ENOSPC))",
            (4, "", "view: pages/page.html: No space left on device\n")),
        End("SIGTERM", "os.kill(os.getpid(), signal.SIGTERM)", (143, "", "")),
        End("SIGKILL", "os.kill(os.getpid(), signal.SIGKILL)", (-9, "", "")))

# Runs ./view, whose page ends after its first pieces.
ENDED = """
import errno, itertools, os, runpy, signal, sys
from viewer.page import page
whole = page.document
def ended(*given):
    yield from itertools.islice(whole(*given), 9)
    DOES
page.document = ended
sys.argv = sys.argv[1:]
runpy.run_path(sys.argv[0], run_name="__main__")
"""


def check_whole(folder: pathlib.Path, room: pathlib.Path, fail: Fail) -> None:
    """Whatever ends a page that is being written, it is not there, or an earlier one still is. What SIGKILL leaves is
    removed by the next page beside it."""
    page, words = room / "pages/page.html", [folder / "view", CAPTURE, "--no-side", "-o", "pages/page.html"]
    run = {"cwd": room, "encoding": "utf-8", "env": {**os.environ, "TMPDIR": str(room), "PYTHONPATH": str(folder)}}
    page.parent.mkdir()
    for end in ENDS:
        before = page.read_bytes() if page.exists() else None
        came = answer([sys.executable, "-c", ENDED.replace("DOES", end.does), *words], **run)
        compare(f"{end.name}: what is answered", came, end.answer, fail)
        compare(f"{end.name}: the page", page.read_bytes() if page.exists() else None, before, fail)
        left = [path for path in page.parent.iterdir() if path != page]
        compare(f"{end.name}: folders that are left", len(left), 1 if end.name == "SIGKILL" else 0, fail)
        answer(words, **run)
        compare(f"{end.name}: what is left after the next page", list(page.parent.iterdir()), [page], fail)
