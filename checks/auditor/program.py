"""Checks the built program from outside: its words, streams, files and memory, which the system gives it and no proof
is about. Whole captures are in crates/audit_cases.

    checks/run program [-- CASE..]     plays these cases alone, as `scripts`, `sizes`, `many/many_calls.cap`, or
                                       "words/report reply.cap": commands have their words as names

And the scripts `audit` and `listing`: what they say before their programs do (`script_lines.py`). It takes 2 GB of
memory and 200 MB of disk.
"""

import argparse
import itertools
import os
import pathlib
import shlex
import shutil
import subprocess
from typing import Callable, Iterable, Iterator, NamedTuple

from checks.auditor import many_things, script_lines
from checks.kit.checking import Fail, check
from checks.kit.programs import CASES, ROOT
from checks.kit.runs import MEMORY, at_once, report_by

Answer = tuple[int, str, str]
Words = list[str | bytes]

USAGE = 64, "", "usage: binder_audit report [--workers N] [--piece N] FILE... or first-fault FILE...\n"
REPLY = 0, many_things.report(
    "frames 2 records 4 opaque 0 missing 0",
    ["codes 4", "  0x00007206 BR_TRANSACTION_COMPLETE 1", "  0x0000720c BR_NOOP 1", "  0x40406300 BC_TRANSACTION 1",
     "  0x80407203 BR_REPLY 1"],
    ["calls 1 answered 1 failed 0 unanswered 0"], ["buffers 1 leaked 1", "  156 0 100 0x7000 0 BR_REPLY"]), ""
GOOD = 0, "no malformed record\n", ""


def malformed(what: str) -> Answer:
    return 2, f"malformed {what}\n", ""


WRONG, WRONG_FIRST = malformed("RecordDirection at 52"), malformed("RecordDirection at 52 in part 1")
TWICE = malformed("FrameSequence at 16 in part 2")
OPEN, READ, WRITE, TOO_LARGE = ((4, "", f"fault {name}\n") for name in ("Open", "Read", "Write", "TooLarge"))
NO_MEMORY = 3, "", MEMORY[2].decode()


class Shell(NamedTuple):
    """Words of the shell that run the command "$@", with a name for what they do to it."""
    name: str
    words: str


PLAIN = Shell("", 'exec "$@"')
# Other streams, or less memory or fewer files.
FULL_OUTPUT = Shell("full output", 'exec "$@" >/dev/full')
CLOSED_OUTPUT = Shell("closed output", 'exec "$@" >&-')
FULL_ERROR = Shell("full error", 'exec "$@" 2>/dev/full')
CLOSED_ERROR = Shell("closed error", 'exec "$@" 2>&-')
CLOSED_BOTH = Shell("closed output and error", 'exec "$@" >&- 2>&-')
CLOSED_ALL = Shell("closed streams", 'exec "$@" <&- >&- 2>&-')
SLOW_INPUT = Shell("slow input", '{ head -c 20 reply.cap && sleep 0.1 && tail -c +21 reply.cap; } | "$@"')
LITTLE_MEMORY = Shell("little memory", 'ulimit -v 100000 && exec "$@"')
FEW_FILES = Shell("few files", 'ulimit -n 64 && exec "$@"')


def with_pipes(name: str, writer: str, before: str = "") -> Shell:
    """The command reads the named pipes; the writer acts as soon as both pipes are open."""
    return Shell(name, f"{before}timeout 60 bash -c 'exec 3>one.fifo 4>two.fifo && {writer}' & "
                       'timeout 60 "$@"; ended=$?; wait; exit "$ended"')


def before_reading(name: str, what: str) -> Shell:
    """A file that is named before the second pipe, and so was opened already, is changed before it is read."""
    return with_pipes(name, f"{what} && cat first-part.cap >&3 && cat empty.cap >&4",
                      "cp -- second-part.cap other.cap; ")


SECOND_FIRST = with_pipes("second pipe first", "cat second-part.cap >&4 && cat first-part.cap >&3")
REMOVED = before_reading("removed", "rm other.cap")
SHORTENED = before_reading("shortened", "truncate -s 20 other.cap")
LENGTHENED = before_reading("lengthened", "cat empty.cap >>other.cap")

# With one part before them and one after them, the most parts that there may be.
EMPTIES = 254 * ["empty.cap"]
BY_TWO = [*report_by(2, 1), "--"]

# How the captures with many of one thing are read: by so many workers, in pieces of so many frames.
MANNERS = {many_things.many_rows: [(), (64, 1)], many_things.many_handles: [()], many_things.many_buffers: [(7, 1)],
           many_things.many_requests: [()], many_things.many_calls: [(7, 1)],
           many_things.many_frames: [*itertools.product((1, 2, 7), (1, 256))]}


def words_and_files() -> Iterator[tuple[Answer, Words]]:
    """Commands, each with the answer that is due: words, files, and several files."""
    yield REPLY, ["report", "reply.cap"]
    yield REPLY, [*BY_TWO, "reply.cap"]
    yield GOOD, ["first-fault", "reply.cap"]
    yield WRONG, ["report", "wrong-direction.cap"]
    yield WRONG, ["first-fault", "wrong-direction.cap"]
    for words in [], ["report", "--help"], [b"\xff"], ["report", b"reply\xff.cap"]:
        yield USAGE, words
    yield OPEN, ["report", "no-such.cap"]
    yield OPEN, ["report", ""]
    yield READ, ["report", "."]
    # Names that would be another name if spaces were trimmed: of `x` itself the answer is another one.
    for name in "-", "./-", "x ", " x", "x\n":
        yield REPLY, ["report", name]
    yield WRONG, ["report", "x"]
    yield GOOD, ["first-fault", "x "]
    yield WRONG, ["first-fault", "x"]
    yield REPLY, ["report", "first-part.cap", "second-part.cap"]
    yield REPLY, [*BY_TWO, "first-part.cap", "second-part.cap"]
    yield GOOD, ["first-fault", "first-part.cap", "second-part.cap"]
    yield WRONG_FIRST, ["report", "wrong-direction.cap", "second-part.cap"]
    yield TWICE, ["first-fault", "reply.cap", "reply.cap"]
    yield TWICE, ["report", "-", "x "]
    yield USAGE, ["report", "first-part.cap", b"second-part\xff.cap"]
    yield REPLY, ["report", "first-part.cap", *EMPTIES, "second-part.cap"]
    yield GOOD, ["first-fault", "first-part.cap", *EMPTIES, "second-part.cap"]
    yield USAGE, ["report", "first-part.cap", *EMPTIES, "second-part.cap", "empty.cap"]
    yield USAGE, ["first-fault", "first-part.cap", *EMPTIES, "second-part.cap", "empty.cap"]
    yield OPEN, ["report", "wrong-direction.cap", "no-such.cap"]
    yield OPEN, ["first-fault", "wrong-direction.cap", "no-such.cap"]
    yield OPEN, ["report", ".", "no-such.cap"]
    yield OPEN, ["report", "past-the-limit.cap", "no-such.cap"]
    yield OPEN, ["report", "reply.cap", ""]
    yield READ, ["report", "first-part.cap", ".", "second-part.cap"]
    yield READ, ["report", "wrong-direction.cap", "."]
    yield READ, ["first-fault", "wrong-direction.cap", "."]
    yield READ, ["report", ".", "past-the-limit.cap"]


def streams() -> Iterator[tuple[Answer, Words, Shell]]:
    """The same, with the words of the shell in which the command runs."""
    yield REPLY, ["report", "/dev/stdin"], SLOW_INPUT
    yield OPEN, ["report", "first-part.cap", *EMPTIES, "second-part.cap"], FEW_FILES
    yield REPLY, ["report", "empty.cap", "/dev/stdin"], SLOW_INPUT
    yield malformed("HeaderShort at 0 in part 2"), ["report", "/dev/stdin", "/dev/stdin"], SLOW_INPUT
    yield REPLY, ["report", "one.fifo", "two.fifo"], SECOND_FIRST
    yield REPLY, ["report", "one.fifo", "other.cap", "two.fifo"], REMOVED
    yield malformed("FrameShort at 16 in part 2"), ["report", "one.fifo", "other.cap", "two.fifo"], SHORTENED
    yield malformed("FrameShort at 124 in part 2"), ["report", "one.fifo", "other.cap", "two.fifo"], LENGTHENED
    yield WRITE, ["report", "reply.cap"], FULL_OUTPUT
    yield WRITE, ["report", "reply.cap"], CLOSED_OUTPUT
    yield WRITE, ["first-fault", "wrong-direction.cap"], FULL_OUTPUT
    yield REPLY, ["report", "reply.cap"], CLOSED_ERROR
    for status, words in (4, ["report", "no-such.cap"]), (64, ["report"]):
        for shell in FULL_ERROR, CLOSED_ERROR:
            yield (status, "", ""), words, shell
    yield (4, "", ""), ["report", "reply.cap"], CLOSED_BOTH
    yield (4, "", ""), ["report", "reply.cap"], CLOSED_ALL
    yield NO_MEMORY, ["report", "/dev/zero"], LITTLE_MEMORY
    yield NO_MEMORY, ["report", "reply.cap", "/dev/zero"], LITTLE_MEMORY


def sizes() -> Iterator[tuple[Answer, Words]]:
    """Commands that read up to 1 GiB."""
    yield malformed("HeaderMagic at 0"), ["report", "at-the-limit.cap"]
    yield TOO_LARGE, ["report", "past-the-limit.cap"]
    yield TOO_LARGE, ["first-fault", "/dev/zero"]
    yield malformed("HeaderMagic at 0 in part 1"), ["report", "half.cap", "half.cap"]
    yield TOO_LARGE, ["report", "half.cap", "half.cap", "short.cap", "."]


def many() -> Iterator[tuple[Callable[[], object], Words]]:
    """Commands that read captures with many of one thing, each with what makes the capture."""
    for make, manners in MANNERS.items():
        for manner in manners:
            yield make, [*(report_by(*manner) if manner else ["report"]), f"{make.__name__}.cap"]


class Command(NamedTuple):
    """A command, in a shell, with the answer that is due; in place of this what makes the capture, and the answer."""
    name: str
    due: Answer | Callable[[], object]
    words: Words
    shell: Shell = PLAIN


def named(kind: str, of: Iterable[tuple]) -> Iterator[Command]:
    """Commands by their words, with `..` where many are alike, and by what the shell does to them."""
    for due, words, *shell in of:
        said = shlex.join(word if isinstance(word, str) else repr(word)[2:-1] for word in words)
        said = said.replace(" ".join(EMPTIES), "..").replace("\n", "\\n") or "none"
        yield Command(": ".join([f"{kind}/{said}", *(one.name for one in shell)]), due, words, *shell)


COMMANDS = [*named("words", words_and_files()), *named("streams", streams()), *named("sizes", sizes()),
            *named("many", many())]
SCRIPTS = "scripts"


def judge_command(program: pathlib.Path, room: pathlib.Path, command: Command, fail: Fail) -> None:
    ended = subprocess.run(["bash", "-c", command.shell.words, "bash", program, *command.words], cwd=room,
                           stdin=subprocess.DEVNULL, capture_output=True)
    came = ended.returncode, *(text.decode(errors="backslashreplace") for text in (ended.stdout, ended.stderr))
    for what, one, other in zip(("status", "standard output", "standard error"), came, command.due):
        if one != other:
            fail(f"{program.name} {command.name[:200]}: {what}: expected {str(other)[:300]!r}, came {str(one)[:300]!r}")


def make_files(room: pathlib.Path) -> None:
    """The files that commands name."""
    for name in "reply", "wrong-direction", "empty", "short":
        shutil.copy(ROOT / f"samples/{name}.cap", room)
    for name in "first-part", "second-part":
        shutil.copy(CASES / f"{name}.cap", room)
    for name in "-", "x ", " x", "x\n":
        shutil.copy(room / "reply.cap", room / name)
    shutil.copy(room / "wrong-direction.cap", room / "x")
    for name in "one.fifo", "two.fifo":
        os.mkfifo(room / name)
    for name, size in ("half", 2**29), ("at-the-limit", 2**30), ("past-the-limit", 2**30 + 1):
        with open(room / f"{name}.cap", "wb") as file:
            file.truncate(size)


def with_captures(commands: list[Command], room: pathlib.Path) -> list[Command]:
    """The commands, with the answers that are due: captures with many of one thing are made only if one reads them."""
    made = {make: (0, many_things.written(room / f"{make.__name__}.cap", make), "")
            for make in dict.fromkeys(command.due for command in commands if callable(command.due))}
    return [command._replace(due=made.get(command.due, command.due)) for command in commands]


def judge(given: argparse.Namespace, room: pathlib.Path, fail: Fail) -> None:
    make_files(room)
    commands = with_captures([command for command in COMMANDS if command.name in given.cases], room)
    # One after another: some streams share a pipe, or a file that is changed; and each size takes 1 GiB of memory.
    in_turn = [command for command in commands if command.name.startswith(("streams/", "sizes/"))]
    rows = [in_turn, *([command] for command in commands if command not in in_turn)]
    for program in given.programs:
        at_once(4, lambda row: [judge_command(program, room, command, fail) for command in row], rows)
    if SCRIPTS in given.cases:
        script_lines.check_scripts(room / "scripts", given.programs[0], fail)


if __name__ == "__main__":
    check(judge, lambda: [*(command.name for command in COMMANDS), SCRIPTS])
