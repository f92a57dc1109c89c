"""What the scripts `audit` and `listing` say on standard error before their programs say a line: which word a program
won't take, and which file it can't open. The scripts are those of a package, so nothing is built.

What must hold:

- Standard output and the status are those of the program alone. So is its line; but what is wrong with the words,
  `listing` says in its place, after its usage.
- `audit` says one line more if the program does not take the words, or can't open or read a file, and else none.
- `listing` says one line more if the program does not take the words, or can't open a file, and else only if it can't
  read or make one. Its options are those of `--help`.
- No line has a sign that a terminal obeys. A FIFO is opened once, by the program.
- What `listing` writes has a ? for each such sign of a side list.
"""

import os
import pathlib
import random
import re
import shutil
from typing import Iterator

from checks.kit.checking import Fail, compare
from checks.kit.listed import listed, printer
from checks.kit.programs import ROOT, TABLES, linked
from checks.kit.runs import answer, at_once
from commands.help import usage_of
from commands.listing import LISTING as LISTING_TABLE
from viewer.lines.run import PRINTER
from viewer.program_names import as_packed

# So many command lines of random words are tried with each script.
RANDOM = 80

# A name that a terminal would take for a title and a colour.
HOSTILE = "\x1b]0;owned\x07\x1b[31mred.cap"

# Words of the random command lines, and with which words those of `audit` begin. What it answers itself is not among
# them.
AUDIT_BEGINS = [["report"]] * 6 + [["first-fault"]] * 2 + [
    ["repot"], ["help"], ["--help", "report"], ["report", "--version"], ["--"], ["-h"], [""]]
AUDIT_WORDS = [
    "--workers", "--workers=4", "--workers=65", "--workers=", "--workers=4=4", "--piece", "--piece=65536", "--piece=0",
    "--piece=65537", "--workers=18446744073709551617", "+4", "04", "4", "64", "-1", "x", "--work", "-x", "-", "--",
    "--=", "--help", "reply.cap", "reply.cap", "reply.cap", "good side.side", "no-such.cap", "folder", "", "\u0663",
    b"\xff.cap", HOSTILE]
LISTING_WORDS = [
    "--at", "--at=156", "--frame", "--frame=156", "--process", "--process=x", "--handle=0x", "--cookie=1_0",
    "--larger=18446744073709551616", "--direction=up", "--flag=TF_ONE_WAY", "--flag=TF", "--code", "--code=",
    "--code=0x40406300", "--code=BC", "--form", "--form=tab", "--objects", "--objects=1",
    "--side", "--side=no-such.side", "--table", "--table=record", "--table=no", "--tables", "--tables=folder",
    "--tables=no-folder", "--kind", "--kind=X", "-x", "-", "--", "--", "100", "0x64", "tab", "BC_REPLY", "record",
    "folder", "reply.cap", "reply.cap", "reply.cap", "good side.side", "no-such.cap", "--help", "-h", "--help=", "",
    b"\xff.cap", HOSTILE]

# Words, and the line that a script says, without its name.
AUDIT_LINES = [
    ([], "the command is missing: report or first-fault"),
    (["repot", "reply.cap"], "the command is report or first-fault, not repot"),
    (["report"], "no file is named"),
    (["report", "--workers", "99", "reply.cap"], "--workers takes 1 to 64, not 99"),
    (["report", "--piece", "0", "reply.cap"], "--piece takes 1 to 65536, not 0"),
    (["report", "--workers", "2", "--workers=2", "reply.cap"], "--workers is there twice"),
    (["report", "reply.cap", "--piece"], "--piece has no value"),
    (["report", "reply.cap", "--help"], "--help must be the only word"),
    (["first-fault", "--workers=2", "reply.cap"],
     "no option --workers; --help lists them, and a file of that name follows --"),
    (["report", *257 * ["reply.cap"]], "257 files are named, and a capture has at most 256"),
    (["report", "reply.cap", "no-such.cap"], "no-such.cap: No such file or directory"),
    (["report", "reply.cap/x"], "reply.cap/x: Not a directory"),
    (["report", "folder"], "folder: Is a directory"),
    (["report", ""], "'': No such file or directory"),
    (["report", HOSTILE], r"$'\E]0;owned\a\E[31mred.cap': No such file or directory"),
    (["report", "\u202egpj.cap"], r"$'\342\200\256gpj.cap': No such file or directory"),
    (["report", b"\xff.cap"], r"$'\377.cap' is not UTF-8"),
    (["report", "/dev/tcp/127.0.0.1/9"], "/dev/tcp/127.0.0.1/9: No such file or directory"),
]
LISTING_LINES = [
    ([], "no file is named"),
    (["--kind", "X", "reply.cap"], "no option --kind; --help lists them, and a file of that name follows --"),
    (["reply.cap", "--at"], "--at has no value"),
    (["--objects=1", "reply.cap"], "--objects takes no value"),
    (["no-such.cap"], "no-such.cap: No such file or directory"),
    (["reply.cap", "--side", "no-such.side"], "no-such.side: No such file or directory"),
    (["folder", "reply.cap"], "folder: Is a directory"),
    (["--table", "record", "reply.cap", "folder"], "folder: Is a directory"),
    (["--tables", "no-folder", "reply.cap"], "no-folder is no folder"),
    (["--at", "5", "--frame", "5", "reply.cap"], "--frame does not go with --at"),
    (["--form", "tab", "--objects", "reply.cap"], "--form does not go with --objects"),
    (["--handle", "x", "reply.cap"], "--handle takes a number, not x"),
    (["--direction", "up", "reply.cap"], "--direction takes write or read, not up"),
    (["--code", "BC", "reply.cap"], "--code takes the name of a record, or its code word, not BC"),
    (["--flag", "TF", "reply.cap"], "--flag takes the name of a flag, not TF"),
    (["--side=a", "--side=b", "reply.cap"], "--side is there twice"),
    (["--table", "calls", "reply.cap"], "there is no table calls"),
    (["--table", "call", "--tables=folder", "reply.cap"], "--tables does not go with --table"),
    (["--table", "record", "--at", "5", "reply.cap"], "--at does not go with --table"),
]

# A side list of samples/reply.cap, with these names of the process and of the thread.
SIDE_LIST = """binder side list 2
1 process 0 100 pid=100 name={}
1 thread 0 100 101 pid=100 tid=101 name={}
2 frame 1
3 frame 2
"""

# What `listing` says first of wrong words, as in a package.
USAGE = as_packed(f"usage: {usage_of(LISTING_TABLE)}\n").encode()

# Each is read to its end by the program: a FIFO that the script opened would lose its writer.
PIPES = ('cat reply.cap | "$@" report /dev/stdin', 'cat reply.cap >one.fifo & timeout 60 "$@" report one.fifo',
         '"$@" report <(cat reply.cap)')


def packed(folder: pathlib.Path, auditor: pathlib.Path) -> pathlib.Path:
    """The scripts as a package has them: beside them nothing is built."""
    scripts = folder / "share/binder-audit"
    (scripts / "crates").mkdir(parents=True)
    for name in ("audit", "listing", "crates/run", "crates/words.sh"):
        shutil.copy(ROOT / name, scripts / name)
    for name in ("commands", "viewer"):
        shutil.copytree(ROOT / name, scripts / name, ignore=shutil.ignore_patterns("*.c", "*.h", "out", "__pycache__"))
    (folder / "lib").mkdir()
    linked(folder / "lib/binder-audit",
           {"binder_audit": auditor, "binder_tables": TABLES, PRINTER: pathlib.Path(printer())})
    return scripts


def make_files(room: pathlib.Path) -> None:
    """The files that words name."""
    (room / "folder").mkdir()
    for name in ("reply.cap", "-"):
        shutil.copy(ROOT / "samples/reply.cap", room / name)
    (room / "good side.side").write_text(SIDE_LIST.format("client", "its thread"), "utf-8")
    (room / "hostile.side").write_text(SIDE_LIST.format("\x1b]0;owned\x07", "\u009b31m\u202egpj\x7f\0"), "utf-8")
    (room / "clean.side").write_text(SIDE_LIST.format("?]0;owned?", "?31m?gpj??"), "utf-8")
    os.mkfifo(room / "one.fifo")


def random_words(begins: list[list], words: list, chance: random.Random) -> Iterator[list]:
    """Command lines but `--help`, in which a package has other names of the programs."""
    for _ in range(RANDOM):
        line = [*chance.choice(begins), *chance.choices(words, k=chance.randint(0, 5))]
        if line != ["--help"]:
            yield line


class Scripts:
    """The scripts, their programs, and where they run."""

    def __init__(self, room: pathlib.Path, auditor: pathlib.Path, fail: Fail) -> None:
        self.room, self.fail = room, fail
        self.folder = packed(room / "package", auditor)
        self.auditor = auditor
        make_files(room)

    def answer(self, path: pathlib.Path, words: list) -> tuple[int, bytes, bytes]:
        return answer([path, *words], cwd=self.room, timeout=60)

    def alone(self, script: str, words: list, both: tuple[int, bytes, bytes]) -> tuple[int, bytes, bytes]:
        """What the program of a script answers. The listing has none that takes these words: of its answer the last
        line is a program's, if it names a fault."""
        if script == "audit":
            return self.answer(self.auditor, words)
        return *both[:2], re.findall(rb"(?:fault \w+\n)?\Z", both[2])[0]

    def line(self, script: str, words: list) -> tuple[int, bytes, bytes]:
        """The status of a script, the program's line on standard error, and what the script said before it. All else
        is compared with the program."""
        both = self.answer(self.folder / script, words)
        alone = self.alone(script, words, both)
        what = f"{script} {words}"[:300]
        compare(f"{what}: status and standard output", both[:2], alone[:2], self.fail)
        is_usage = script == "listing" and alone[0] == 64
        before, after = (USAGE, b"") if is_usage else (b"", alone[2])
        if not (both[2].startswith(before) and both[2].endswith(after)):
            self.fail(f"{what}: {before or after!r} is not what it says beside its own line: {both[2]!r}")
        said = both[2].removeprefix(before).removesuffix(after)
        if said and not re.fullmatch(rf"{script}: [ -~]+\n".encode(), said):
            self.fail(f"{what}: not one plain line: {said!r}")
        return alone[0], alone[2], said

    def check_line(self, script: str, words: list, due: str) -> None:
        compare(f"{script} {words}"[:300], self.line(script, words)[2].decode(), f"{script}: {due}\n", self.fail)

    def check_audit(self, words: list) -> None:
        status, told, said = self.line("audit", words)
        is_due = status == 64 or told in (b"fault Open\n", b"fault Read\n")
        if bool(said) != is_due:
            self.fail(f"audit {words}: it says {said!r}, and the program {told!r}, with status {status}")

    def check_listing(self, words: list) -> None:
        status, told, said = self.line("listing", words)
        is_due = status == 64 or told == b"fault Open\n"
        if said and status not in (4, 64) or is_due and not said:
            self.fail(f"listing {words}: it says {said!r}, and the program {told!r}, with status {status}")

    def check_pipes(self) -> None:
        due = self.answer(self.auditor, ["report", "reply.cap"])
        for shell in PIPES:
            compare(shell, answer(["bash", "-c", shell, "bash", self.folder / "audit"], cwd=self.room), due, self.fail)

    def check_streams(self) -> None:
        """What standard error does not take changes nothing."""
        for shell in ('"$@" 2>/dev/full', '"$@" 2>&-'):
            for status, words in (4, ["report", "no-such.cap"]), (64, ["repot"]):
                came = answer(["bash", "-c", shell, "bash", self.folder / "audit", *words], cwd=self.room)
                compare(f"{shell} {words}", came, (status, b"", b""), self.fail)

    def check_names(self) -> None:
        """Whatever file the side list is, and in lines and in columns."""
        for shell in '"$@"', '"$@" --form tab', '"${@/hostile.side//dev/stdin}" <hostile.side', \
                'cat hostile.side | "${@/hostile.side//dev/stdin}"':
            words = ["reply.cap", "--side", "hostile.side"]
            came = answer(["bash", "-c", shell, "bash", self.folder / "listing", *words], cwd=self.room)
            form = ["--form", "tab"] * ("--form" in shell)
            due = listed("reply.cap", "--side", "clean.side", *form, cwd=self.room)
            compare(f"{shell} {words}", came, due, self.fail)
            if b"?]0;owned?" not in came[1]:
                self.fail(f"{shell} {words}: the names are not there")
        full = answer(["bash", "-c", '"$@" >/dev/full', "bash", self.folder / "listing", *words], cwd=self.room)
        compare(f"{words} on a full disk", full, (4, b"", b"fault Write\n"), self.fail)


def check_scripts(room: pathlib.Path, auditor: pathlib.Path, fail: Fail) -> None:
    room.mkdir()
    scripts = Scripts(room, auditor, fail)
    at_once(4, lambda line: scripts.check_line("audit", *line), AUDIT_LINES)
    at_once(4, lambda line: scripts.check_line("listing", *line), LISTING_LINES)
    chance = random.Random(7)
    at_once(4, scripts.check_audit, random_words(AUDIT_BEGINS, AUDIT_WORDS, chance))
    at_once(4, scripts.check_listing, random_words([[]], LISTING_WORDS, chance))
    scripts.check_pipes()
    scripts.check_streams()
    scripts.check_names()
