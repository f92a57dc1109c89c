"""Runs the built program on devices that fail, are slow or change, and checks its answers.

    checks/run devices [-- PROGRAM..]

It is run by hand and not by `.ci/run`: it makes some 3,800 runs, which took two minutes and a half on a busy machine.
It builds only `devices.c` beside it, for which it needs `cc`. A device that hangs is not tested.

The answer that is due for a capture comes from kit/second_reading.py. For a file that changes while it is read, it is
the answer for the bytes that the reads gave, which the shim records.
"""

import errno
import os
import pathlib
import subprocess
from typing import NamedTuple

from checks.kit import runs
from checks.kit.captures import BC_ACQUIRE, BC_REPLY, HEADER, each, transaction, write
from checks.kit.checking import check, compare
from checks.kit.programs import ROOT, preloadable

# How many bytes the program asks for in a read.
ASKED = 65536

FIRST_FAULT = ["first-fault", "capture"]
REPORT = [*runs.report_by(1), "capture"]
BY_FOUR = [*runs.report_by(4, 1), "capture"]

READ = 4, b"", b"fault Read\n"
WRITE = 4, b"", b"fault Write\n"

REPLY = (ROOT / "samples/reply.cap").read_bytes()

# Replies to nothing, with unknown flags: a row of `strays` and one of `flags` for each, more than twice 64 KiB.
REPLIES = HEADER + write(1, 4000000000, 4000000000, *[transaction(BC_REPLY, flags=0xFFFFFF82)] * 2000)

# Frames of 1,000 references to a handle: 8,032 bytes each.
REFERENCES = HEADER + b"".join(write(number, 100, 101, *each(BC_ACQUIRE, *[7] * 1000)) for number in range(1, 21))

# Frames of 100 references, more than 1 MiB: a file that all workers read at once.
LARGE = HEADER + b"".join(write(number, 100, 101, *each(BC_ACQUIRE, *[7] * 100)) for number in range(1, 1500))


class Run(NamedTuple):
    answer: tuple  # the status, standard output, standard error
    calls: list  # each call on the capture and on standard output: its name, and what it returned
    given: bytes  # the bytes that the reads of the capture gave

    def told(self):
        status, out, err = self.answer
        return f"status {status}, {len(out)} bytes, {err}, after {len(self.calls)} calls"


class Program(NamedTuple):
    """A program, the folder with `capture` that it runs in, and the shim."""
    path: pathlib.Path
    room: pathlib.Path
    shim: pathlib.Path

    def run(self, words, capture, **devices):
        """A run with the shim."""
        for name in ("log", "given"):
            (self.room / name).write_bytes(b"")
        (self.room / "capture").write_bytes(capture)
        around = runs.with_library(self.shim, DEVICE_FILE="capture", DEVICE_LOG="log", DEVICE_BYTES="given", **devices)
        answer = runs.answer([self.path, *words], timeout=60, cwd=self.room, env=around)
        lines = (self.room / "log").read_text("utf-8").splitlines()
        calls = [(name, int(answered)) for name, _, answered in map(str.split, lines)]
        return Run(answer, calls, (self.room / "given").read_bytes())

    def plain(self, words, capture, streams="", before="", **options):
        """The answer of a run without the shim, with these redirections of a shell, after these words of the shell."""
        (self.room / "capture").write_bytes(capture)
        return runs.answer(["sh", "-c", f'{before} exec "$0" "$@" {streams}', self.path, *words], timeout=60,
                           cwd=self.room, **options)


def due(words, capture):
    """The answer that is due if no device fails."""
    return runs.due(capture, words is FIRST_FAULT)


def parts(name, length, most):
    """The calls that read or write `length` bytes, at most `most` in each call."""
    return [(name, min(most, length - at)) for at in range(0, length, most)]


def slow_devices(program, fail):
    """One byte for each read and each write: the same answer, with as many calls as there are bytes."""
    for words in (REPORT, BY_FOUR, FIRST_FAULT):
        wanted = due(words, REPLY)
        run = program.run(words, REPLY, READ_MOST=1, WRITE_MOST=1)
        if run.answer != wanted or run.given != REPLY:
            fail(f"{words[0]}: another answer by one byte a call")
        if run.calls != parts("read", len(REPLY), 1) + [("read", 0)] + parts("write", len(wanted[1]), 1):
            fail(f"{words[0]}: {len(run.calls)} calls by one byte a call")


def failing_reads(program, fail):
    """Each read fails in turn, also the one that would find the end. It is then the last call."""
    for words, capture, most in ((REPORT, REPLY, 1), (FIRST_FAULT, REPLY, 1), (BY_FOUR, REFERENCES, ASKED)):
        reads = parts("read", len(capture), most)
        for error in (errno.EIO, errno.EINTR):
            for number in range(1, len(reads) + 2):
                run = program.run(words, capture, READ_MOST=most, READ_FAILS_AT=number, READ_ERROR=error)
                if run.answer != READ or run.calls != reads[:number - 1] + [("read", -1)]:
                    fail(f"{words[0]}: read {number} fails by {errno.errorcode[error]}: {run.told()}")


def failing_writes(program, fail):
    """Each write fails in turn, or takes no byte. It is then the last call, and a beginning of the text is written."""
    for words, capture, most in ((REPORT, REPLY, 1), (FIRST_FAULT, REPLY, 1), (BY_FOUR, REPLIES, ASKED)):
        text = due(words, capture)[1]
        writes = parts("write", len(text), most)
        for error in (errno.EIO, errno.ENOSPC, errno.EINTR, 0):
            for number in range(1, len(writes) + 1):
                run = program.run(words, capture, WRITE_MOST=most, WRITE_FAILS_AT=number, WRITE_ERROR=error)
                taken = text[:(number - 1) * most]
                made = [call for call in run.calls if call[0] == "write"]
                if run.answer != (4, taken, b"fault Write\n") \
                        or made != writes[:number - 1] + [("write", -1 if error else 0)]:
                    what = errno.errorcode.get(error, "taking no byte")
                    fail(f"{words[0]}: write {number} fails by {what}: {run.told()}")


def changed_files(program, fail):
    """Before the second read the file is replaced. The answer is for the bytes that the reads gave: those of the first
    read from the old file, and all later ones from the new file."""
    fourth = REFERENCES[:16 + 3 * 8032]
    rewritten = REFERENCES.replace(b"\x07\0\0\0", b"\x08\0\0\0")
    for name, old, new, most in [
        ("grown", REFERENCES[:-8032], REFERENCES, ASKED),
        ("grown by less than a frame", REFERENCES[:-8032], REFERENCES[:-1], ASKED),
        ("shrunk to a frame's end", REFERENCES, REFERENCES[:-8032], ASKED),
        ("shrunk within a frame", REFERENCES, REFERENCES[:-1], ASKED),
        ("shrunk below what was read", REFERENCES, fourth, ASKED),
        ("emptied", REFERENCES, b"", ASKED),
        ("rewritten", REFERENCES, rewritten, ASKED),
        ("made longer after its first read", REPLY, REPLY + write(3, 100, 101, *each(BC_ACQUIRE, 7)), ASKED),
        ("made longer, 64 bytes a read", REPLY, REPLY + write(3, 100, 101, *each(BC_ACQUIRE, 7)), 64),
        ("cut at 148, 64 bytes a read", REPLY, REPLY[:148], 64),
    ]:
        (program.room / "other").write_bytes(new)
        first = min(len(old), most)
        given = old[:first] + new[first:]
        for words in (REPORT, BY_FOUR, FIRST_FAULT):
            run = program.run(words, old, READ_MOST=most, CHANGE_AT=2, CHANGE_TO="other")
            if run.given != given:
                fail(f"{words[0]}: a file {name}: the reads gave other bytes than were meant")
            if run.answer != due(words, run.given):
                fail(f"{words[0]}: a file {name}: not the answer about the bytes that were read")


def read_by_all(program, fail):
    """A file that all workers read at once. Each read fails in turn; the file changes before a read; and the system
    lets the program open no second file."""
    whole = program.run(BY_FOUR, LARGE)
    if whole.answer != due(BY_FOUR, LARGE) or whole.given[:16] != LARGE[:16] or len(whole.given) <= len(LARGE):
        fail(f"a large file by four: {whole.told()}, {len(whole.given)} bytes read")
    for number in range(1, len([name for name, _ in whole.calls if name == "read"]) + 1):
        run = program.run(BY_FOUR, LARGE, READ_FAILS_AT=number, READ_ERROR=errno.EIO)
        if run.answer != READ:
            fail(f"read {number} of a large file fails: {run.told()}")
    frame = write(2000, 100, 101, *each(BC_ACQUIRE, 7))
    for name, new in [("grown", LARGE + frame), ("grown by less than a frame", LARGE + frame[:-1]),
                      ("shrunk to a frame's end", LARGE[:-832]), ("shrunk within a frame", LARGE[:-1]),
                      ("shrunk to a part of it", LARGE[:500_000]), ("emptied", b""),
                      ("rewritten", LARGE.replace(b"\x07\0\0\0", b"\x08\0\0\0"))]:
        (program.room / "other").write_bytes(new)
        run = program.run(BY_FOUR, LARGE, CHANGE_AT=2, CHANGE_TO="other")
        if run.answer != due(BY_FOUR, LARGE[:16] + new[16:]):
            fail(f"a large file {name} once its file header is read: {run.told()}")
        for at in range(3, len(whole.calls), 5):
            run = program.run(BY_FOUR, LARGE, CHANGE_AT=at, CHANGE_TO="other")
            if run.answer[0] not in (0, 2) or run.answer[2]:
                fail(f"a large file {name} before read {at}: {run.told()}")
    compare("a large file where one file may be open", program.plain(BY_FOUR, LARGE, before="ulimit -n 4;"),
            due(BY_FOUR, LARGE), fail)


def failing_streams(program, fail):
    """Full and closed streams. The status is the same even if the line of the failure can't be written."""
    for words in (REPORT, BY_FOUR, FIRST_FAULT):
        for capture, size in ((REPLY, "short"), (REPLIES, "long")):
            for streams in (">/dev/full", ">&-"):
                came = program.plain(words, capture, streams)
                compare(f"{words[0]} on a {size} capture {streams}", came, WRITE, fail)
    failures = [
        (["report"], "", 64),
        (["report", "no-such-file"], "", 4),
        (["report", "."], "", 4),
        (REPORT, ">/dev/full", 4),
        (REPORT, ">&-", 4),
    ]
    for words, streams, status in failures:
        for error in ("2>/dev/full", "2>&-"):
            compare(f"{words} {streams} {error}", program.plain(words, REPLY, f"{streams} {error}"),
                    (status, b"", b""), fail)
        with unread_pipe() as end:
            compare(f"{words} {streams} with standard error unread", program.plain(words, REPLY, streams, stderr=end),
                    (status, b"", None), fail)


def unread_pipe():
    """The writing end of a pipe whose reader has ended."""
    reader, writer = os.pipe()
    os.close(reader)
    return os.fdopen(writer, "wb", buffering=0)


def left_pipes(program, fail):
    """A pipe whose reader ends before the report is written, or after it has read some of it: no signal ends the
    program."""
    for words in (REPORT, BY_FOUR, FIRST_FAULT):
        for capture, size in ((REPLY, "short"), (REPLIES, "long")):
            with unread_pipe() as end:
                compare(f"{words[0]} on a {size} capture, into a pipe that nobody reads",
                        program.plain(words, capture, stdout=end), (4, None, b"fault Write\n"), fail)
    for words in (REPORT, BY_FOUR):
        for part in (1, 4096, ASKED):
            taken, got = read_in_part(program, words, part)
            if taken != due(words, REPLIES)[1][:part] or got != (4, b"fault Write\n"):
                fail(f"{words[0]} into a pipe from which {part} bytes are read: {got}")


def read_in_part(program, words, part):
    """The first `part` bytes of the long report; and the status and standard error when the reader then ends."""
    (program.room / "capture").write_bytes(REPLIES)
    with subprocess.Popen([program.path, *words], cwd=program.room, stdout=subprocess.PIPE,
                          stderr=subprocess.PIPE) as running:
        taken = running.stdout.read(part)
        running.stdout.close()
        error = running.stderr.read()
        return taken, (running.wait(timeout=60), error)


def judge(given, room, fail):
    if len(due(REPORT, REPLIES)[1]) <= 2 * ASKED:
        fail("the long report is too short to fill a pipe twice")
    shim = preloadable(room, "auditor/devices.c")
    for path in given.programs:
        for case in (slow_devices, failing_reads, failing_writes, changed_files, read_by_all, failing_streams,
                     left_pipes):
            program = Program(path, room, shim)
            case(program, lambda what, case=case: fail(f"{case.__name__}: {what}"))


if __name__ == "__main__":
    check(judge)
