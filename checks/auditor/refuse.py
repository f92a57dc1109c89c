"""Refuses each growth of memory in turn: of the built program, and of each call that takes memory.

    checks/run refuse -- [--all] [--table] [PROGRAM..]

It goes through three captures with one worker. With --all, as `.ci/run` calls it, it goes through eight, with one
worker and with four, and then through the calls of the built crates/refusal_cases; `rows`, `text` and the faults of
audits are also compared with kit/second_reading.py. It builds only `refuse.c` beside it, for which it needs `cc`. With
--table it prints two tables, of the program and of the calls; docs/MEASURED.md has their sums.

A run has its n-th growth refused, for n = 1, 2 and so on until a run meets no refusal. It answers Memory: nothing on
standard output, `fault Memory`, status 3; a call answers with the line `Memory`. No refused growth is ignored, with one
exception: a thread that can't be started leaves its work to the thread that would have started it, and then the run
answers as if nothing was refused. That is allowed only where fewer threads were started than without a refusal; one
worker starts none. Memory is answered also where the capture has a malformed record. If every growth from the n-th on
is refused, one worker always answers Memory.
"""

from typing import NamedTuple

from checks.kit.captures import BC_ENTER_LOOPER, HEADER, record, write
from checks.kit.checking import FLAG, check
from checks.kit.programs import CASES, ROOT, preloadable
from checks.kit.runs import MEMORY, answer, as_answer, report_by, with_library
from checks.kit.second_reading import reading_of_parts

CALLS_BUILT = ROOT / "crates/refusal_cases/out/refusal_cases"

# The answer Memory of a call, and of `program`, before which the call's input is read.
MEMORY_OF_CALL = [(3, b"Memory\n", b"")]
MEMORY_OF_PROGRAM = [*MEMORY_OF_CALL, (3, b"Memory\n", b"fault Memory\n")]

# A capture, or its parts, and the least number of growths that one worker makes. Without --all it is the first three;
# the third has a fault.
CAPTURES = [
    ("reply.cap", 111),
    ("node-half-confirmed.cap", 108),
    ("two-wrong-directions.cap", 98),
    ("refused-oneway.cap", 128),
    ("attachment.cap", 116),
    ("death-not-acknowledged.cap", 110),
    ("held-and-taken.cap", 117),
    ("first-part.cap second-part.cap", 114),
]

# Captures in parts: a good one, one with its parts in the wrong order, and others with a fault or of both versions.
IN_ORDER, TURNED = "first-part.cap second-part.cap", "second-part.cap first-part.cap"
NONE_AND_SHORT = "empty.cap short.cap"
PART_LISTS = (IN_ORDER, TURNED, NONE_AND_SHORT, "empty.cap version-2-empty.cap empty.cap", "short.cap",
              "sequence-5.cap sequence-9-of-version-2.cap", "empty.cap two-wrong-directions.cap")


def by_one_and_four(name, growths):
    """The lines of a call with one worker and with four. With four there are more growths, and the number varies."""
    return {f"{name} by {workers}": growths for workers in (1, 4)}


# For each call its captures, and the least number of growths of one worker. They are those of the whole run, which
# reads the capture and makes the call's arguments first. A call in PARTS takes several captures, and one in WORDS takes
# the words of a command line, or names of files.
CALLS = {
    "read_capture": {"acquire.cap": 4},
    "read_parts": {IN_ORDER: 8, NONE_AND_SHORT: 8},
    "cut": {"acquire.cap": 3, "code-cut-before-a-bad-frame.cap": 3},
    "cut_parts": {IN_ORDER: 4, TURNED: 4, "empty.cap code-cut-before-a-bad-frame.cap": 4},
    "Tally: add, rows": {"many-frames.cap": 28, "greatest-data-sizes.cap": 7},
    "Tally: join, rows": {"many-frames.cap": 29, "greatest-data-sizes.cap": 8},
    "HandleLedger: add, rows": {
        "acquire.cap": 7, "released-before-acquired.cap": 7, "handles-of-two-processes.cap": 7},
    "HandleLedger: join, rows": {
        "acquire.cap": 8, "released-before-acquired.cap": 8, "handles-of-two-processes.cap": 8},
    "HandleLedger: add, rows_held": {"held-and-taken.cap": 11, "attachment.cap": 9},
    "HandleLedger: join, rows_held": {"held-and-taken.cap": 13, "attachment.cap": 10},
    "NodeLedger: add, rows": {"node-half-confirmed.cap": 7},
    "NodeLedger: join, rows": {"node-half-confirmed.cap": 8},
    "Buffers: add, outstanding, strays": {"freed-reply.cap": 7, "freed-before-delivered.cap": 10},
    "Buffers: join, outstanding, strays": {"freed-reply.cap": 9, "freed-before-delivered.cap": 11},
    "Deaths: add, outstanding, strays": {"death-not-acknowledged.cap": 7},
    "Deaths: join, outstanding, strays": {"death-not-acknowledged.cap": 8},
    "Clears: add, outstanding, strays": {"clear-confirmed-twice.cap": 8},
    "Clears: join, outstanding, strays": {"clear-confirmed-twice.cap": 10},
    "Tally by OnewayKey: add, rows": {"refused-oneway.cap": 8, "greatest-data-sizes.cap": 7},
    "Tally by OnewayKey: join, rows": {"refused-oneway.cap": 9, "greatest-data-sizes.cap": 8},
    "Requests: add, outstanding": {"death-not-acknowledged.cap": 7},
    "Requests: join, outstanding": {"death-not-acknowledged.cap": 8},
    "ThreadCalls: add, finish": {"reply.cap": 6, "refused-oneway.cap": 8, "dead-reply.cap": 6, "crossed-call.cap": 6,
                                 "error-to-no-call.cap": 5},
    "ThreadCalls: join, finish": {"reply.cap": 7, "refused-oneway.cap": 10, "dead-reply.cap": 6, "crossed-call.cap": 8,
                                  "error-to-no-call.cap": 5},
    "Board::new": {"released-before-acquired.cap": 6, "two-wrong-directions.cap": 22},
    **by_one_and_four("run_all", {"released-before-acquired.cap": 11, "two-wrong-directions.cap": 24}),
    "Plan::new": {"released-before-acquired.cap": 4, "many-frames.cap": 18},
    "PieceSummary: add, sections": {"released-before-acquired.cap": 13, "many-frames.cap": 16},
    "PieceSummary: join, sections": {"released-before-acquired.cap": 20, "many-frames.cap": 20},
    **by_one_and_four("audit", {"empty.cap": 2, "reply.cap": 21, "two-wrong-directions.cap": 23}),
    **by_one_and_four("audit_parts", dict(zip(PART_LISTS, (28, 10, 3, 5, 3, 19, 24)))),
    "audit_one": {"empty.cap": 2, "reply.cap": 21, "two-wrong-directions.cap": 14, "short.cap": 1},
    "rows": {"empty.cap": 6, "reply.cap": 27, "eight-frames.cap": 27, "rows-of-two-devices.cap": 27},
    "text": {"empty.cap": 8, "reply.cap": 30, "eight-frames.cap": 30, "rows-of-two-devices.cap": 30},
    **by_one_and_four("run", {"empty.cap": 10, "short.cap": 4, "reply.cap": 32, "two-wrong-directions.cap": 25}),
    "run_gated by 1": {"released-before-acquired.cap": 30},
    **by_one_and_four("run_parts", dict(zip(PART_LISTS, (43, 16, 9, 19, 7, 31, 30)))),
    "run_first_fault": {"acquire.cap": 4, "two-wrong-directions.cap": 4},
    "run_first_fault_parts": dict(zip(PART_LISTS, (9, 9, 9, 11, 7, 9, 9))),
    "answer: report by 1": {IN_ORDER: 43, TURNED: 16},
    "answer: first fault": {IN_ORDER: 9, TURNED: 9},
    "answer_files: report by 1": {IN_ORDER: 44, TURNED: 17},
    "answer_files: first fault": {IN_ORDER: 10, TURNED: 10},
    "program": {
        "report --workers 1 --piece 1 reply.cap": 110, "report --workers 0 reply.cap": 58, "report": 75,
        "first-fault acquire.cap": 53, "first-fault two-wrong-directions.cap": 53, "report no-such.cap": 57},
}

# The beginnings of the names of the calls that take the parts of a capture, and of those that take words.
PARTS = ("read_parts", "cut_parts", "audit_parts", "run_parts", "run_first_fault_parts", "answer:")
WORDS = ("answer_files", "program")


class Run(NamedTuple):
    """The answer of a run, how many growths were refused, and how many threads started."""
    answer: tuple[int, bytes, bytes]
    refused: int
    started: int


class Sweep:
    """The runs of a program on words and an input, with growths refused."""

    def __init__(self, room, program, words, given=b"", memory=(MEMORY,)):
        self.log = room / "refused"
        # `judge` has compiled it into the room.
        self.shim = room / "refuse"
        self.program = program
        self.words = words
        # The input is a file: a pipe gives its bytes differently from run to run, and then the growths differ too.
        self.given = room / "given"
        self.given.write_bytes(given)
        self.memory = memory
        self.whole = self.run({})

    def run(self, growths):
        """A run in which these growths are refused."""
        self.log.write_text("", "utf-8")
        around = with_library(self.shim, REFUSE_LOG=self.log, **growths)
        with open(self.given, "rb") as given:
            answered = answer(self.words, timeout=60, executable=self.program, cwd=CASES, env=around, stdin=given)
        lines = self.log.read_text("utf-8").splitlines()
        started = lines.count("thread")
        return Run(answered, len(lines) - started, started)

    def all_runs(self, name):
        """The runs with a refusal, where the first refused growth is 1, 2 and so on; and the run after them, with
        none."""
        runs = []
        while True:
            one = self.run({name: len(runs) + 1})
            if not one.refused:
                return runs, one
            runs.append(one)

    def is_passed_over(self, one):
        """Whether a run answered as if nothing was refused, though it started all threads."""
        return one.answer == self.whole.answer and one.started >= self.whole.started


def of_program(room, program, capture, workers):
    """The program on a capture with this many workers, in pieces of one frame."""
    # The words do not depend on where the repository is, since longer words may take more growths.
    return Sweep(room, program, ["binder_audit", *report_by(workers, 1), *capture.split()])


def given_of(name, named):
    """What a call gets after its name: a capture, parts with the length of each before it, or words."""
    words = named.split()
    if name.startswith(PARTS):
        parts = [(CASES / word).read_bytes() for word in words]
        return b"".join(len(part).to_bytes(2, "little") + part for part in parts)
    if name.startswith(WORDS):
        return "\t".join(["binder_audit"] * (name == "program") + words).encode()
    return (CASES / named).read_bytes()


def of_call(room, name, named):
    """A call on a capture, on parts or on words."""
    memory = MEMORY_OF_PROGRAM if name == "program" else MEMORY_OF_CALL
    return Sweep(room, CALLS_BUILT, ["refusal_cases"], name.encode() + b"\n" + given_of(name, named), memory)


def due_of(name, named):
    """The whole answer of a call, by the second reading: of `rows` and `text`, which print the findings of `audit_one`,
    and of the other audits if there is a fault. Without one, `audit` answers as `audit_one` does. None for other
    calls."""
    call, _, _ = name.partition(" by ")
    if call not in ("audit", "audit_one", "audit_parts", "rows", "text"):
        return None
    status, lines = reading_of_parts([(CASES / word).read_bytes() for word in named.split()])
    if status == 2:
        _, kind, _, place, *part = lines[0].split()
        fault = f"Fault {{ kind: {kind}, place: {place} }}"
        if call == "audit_parts":
            fault = f"PartFault {{ part: {(part or [1])[-1]}, fault: {fault} }}"
        return as_answer(0, [fault])
    if call == "audit":
        return answer([CALLS_BUILT], input=b"audit_one\n" + (CASES / named).read_bytes())
    return as_answer(0, lines + [""] * (call == "text")) if call in ("rows", "text") else None


def numbers_where(runs, holds):
    """The numbers of the refused growths of those runs for which this holds."""
    return [number for number, one in enumerate(runs, 1) if holds(one)]


def judged(sweep, workers, least, fail):
    """Reports what is wrong with a sweep, and returns its numbers for the table."""
    runs, last = sweep.all_runs("REFUSE_AT")
    other = numbers_where(runs, lambda one: one.answer not in [*sweep.memory, sweep.whole.answer])
    passed_over = numbers_where(runs, sweep.is_passed_over)
    if last.answer != sweep.whole.answer:
        fail("the last run, without a refusal, has another answer")
    if len(runs) < least:
        fail(f"{len(runs)} growths and not {least}")
    if other:
        fail(f"neither Memory nor the capture's answer where these growths are refused: {other}")
    if passed_over:
        fail(f"expected Memory, but the refusal of these growths is ignored: {passed_over}")
    if workers == 1:
        from_there, _ = sweep.all_runs("REFUSE_FROM")
        wrong = numbers_where(from_there, lambda one: one.answer not in sweep.memory)
        if wrong or len(from_there) < least:
            fail(f"expected Memory with all growths refused from the n-th on, 1 to {len(from_there)}; not so: {wrong}")
    memory = sum(one.answer in sweep.memory for one in runs)
    return len(runs), memory, sum(one.answer == sweep.whole.answer for one in runs)


class Table:
    """Rows that are printed as a table: a name is only in its first row."""

    def __init__(self, names, *numbers):
        self.name_count = len(names)
        self.rows = [[*names, *numbers, "growths", "answered Memory", "as if nothing was refused"]]

    def add(self, *cells):
        self.rows.append([str(cell) for cell in cells])

    def show(self):
        widths = [max(map(len, column)) for column in zip(*self.rows)]
        latest = None
        for row in self.rows:
            shown = ["" if row[0] == latest else row[0], *row[1:]]
            latest = row[0]
            sides = "<" * self.name_count + ">" * (len(row) - self.name_count)
            cells = (f"{cell:{side}{width}}" for cell, side, width in zip(shown, sides, widths))
            print("    " + "  ".join(cells).rstrip())


def sweep_program(room, program, whole, fail):
    """Tries the program on each capture, and returns the table."""
    table = Table(["capture of audit_cases"], "workers")
    for capture, least in CAPTURES if whole else CAPTURES[:3]:
        for workers in (1, 4) if whole else (1,):
            numbers = judged(of_program(room, program, capture, workers), workers, least,
                             lambda what: fail(f"{program}: {capture} by {workers}: {what}"))
            table.add(capture, workers, *numbers)
    if whole:
        sweep_large(room, program, table, fail)
    return table


def sweep_large(room, program, table, fail):
    """Tries the program on a file that is large enough to be read by all workers at once."""
    (room / "large.cap").write_bytes(HEADER + b"".join(
        write(number, 100, 101, record(BC_ENTER_LOOPER)) for number in range(1, 30_000)))
    for workers in (1, 4):
        sweep = of_program(room, program, str(room / "large.cap"), workers)
        table.add("large.cap", workers,
                  *judged(sweep, workers, 120, lambda what: fail(f"{program}: large.cap: {what}")))


def sweep_calls(room, fail):
    """Tries each call. Returns the table of the calls where not all growths answered Memory, and how many were
    tried."""
    table, tried = Table(["call", "captures of audit_cases, or words"]), 0
    if not CALLS_BUILT.exists():
        fail(f"{CALLS_BUILT.relative_to(ROOT)} is not there")
        return table, tried
    for name in sorted(CALLS.keys() ^ set(answer([CALLS_BUILT], input=b"")[1].decode().splitlines())):
        fail(f"{name}: only in " + ("the table here" if name in CALLS else "the list of refusal_cases"))
    for name, captures in CALLS.items():
        for capture, least in captures.items():
            sweep = of_call(room, name, capture)
            if sweep.whole.answer[0] != 0:
                fail(f"{name} on {capture}: status {sweep.whole.answer[0]} without a refusal")
                continue
            if due_of(name, capture) not in (None, sweep.whole.answer):
                fail(f"{name} on {capture}: not the answer of the second reading")
            numbers = judged(sweep, 4 if name.endswith(" by 4") else 1, least,
                             lambda what: fail(f"{name} on {capture}: {what}"))
            tried += 1
            if numbers[0] != numbers[1]:
                table.add(name, capture, *numbers)
    return table, tried


def judge(given, room, fail):
    preloadable(room, "auditor/refuse.c")
    for program in given.programs:
        table = sweep_program(room, program, given.all, fail)
        if given.table:
            table.show()
    if given.all:
        table, tried = sweep_calls(room, fail)
        if given.table:
            print(f"\n{len(CALLS)} calls on {tried} inputs; all growths answered Memory but in these:\n")
            table.show()


if __name__ == "__main__":
    check(judge, all=FLAG, table=FLAG)
