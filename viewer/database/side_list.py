"""The side list of the recorder, line by line into the tables `side_..`."""

import itertools
import pathlib
import re
import sqlite3
from typing import TYPE_CHECKING, BinaryIO, Iterable, NamedTuple

from viewer.database import side_belongs
from viewer.database.last_names import LastNames
from viewer.database.narrowed import narrowed_of
from viewer.database.process_names import is_app, is_not_yet_named, long_name
from viewer.files import Stopped, errors_of, for_owner
from viewer.units import signed
from viewer.zeros import ended_text

if TYPE_CHECKING:
    from viewer.database.finders import Finders

# ---- numbers


def decimal(word: str, bits: int) -> int:
    """A number of at most so many bits. Nothing longer is read: of thousands of digits Python takes no number."""
    if not re.fullmatch("[0-9]{1,20}", word) or int(word) >= 2**bits:
        raise ValueError(word)
    return int(word)


def number(word: str) -> int:
    """A number of at most 64 bits, as SQLite has it."""
    return signed(decimal(word, 64))


def address(word: str) -> int:
    """An address of at most 64 bits, as SQLite has it."""
    if not re.fullmatch("0x[0-9a-f]{1,16}", word):
        raise ValueError(word)
    return signed(int(word, 16))


def numbers(words: list[str], count: int) -> list[int]:
    """The first `count` of some numbers; it is an error if there are fewer."""
    if len(words) < count:
        raise IndexError(count)
    return [number(word) for word in words[:count]]


# ---- the side list


class Copy(NamedTuple):
    """A copy of one of the driver's books, as the side list names it: when, which book, the last number before it was
    made and the last one when it was there, its time and its length."""
    moment: str
    what: str
    from_seq: int
    after: int
    ts: int
    size: int


# How much of a line is looked at before the loader has seen that no line is too long.
PIECE = 2**16

# The longest name that is kept. Those of the system have at most 15 bytes, and command lines at most 256.
LONGEST_NAME = 256


def unescaped(name: str) -> str:
    """A name of the side list. In the list a control character or a backslash is written as `\\x` and two digits."""
    name = re.sub(r"\\x([0-9a-f]{2})", lambda found: chr(int(found[1], 16)), name[:4 * LONGEST_NAME + 1])
    return name if len(name) <= LONGEST_NAME else name[:LONGEST_NAME] + "…"


def line_of(line: str, path: str) -> tuple[int, str, list[str], dict[str, str]]:
    """A line of a side list: time, word, numbers by position, and fields by name."""
    front, named, name = line.partition(" name=")
    time, _, rest = front.partition(" ")
    word, *fields = rest.split(" ")
    try:
        at = decimal(time, 63)
    except ValueError as error:
        raise Stopped(4, f"{path} has a line without a time: {line[:80]!r}") from error
    positional = [field for field in fields if "=" not in field]
    keyed = dict(field.split("=", 1) for field in fields if "=" in field)
    if named:
        keyed["name"] = unescaped(name)
    return at, word, positional, keyed


def drivers_of(text: str) -> dict[tuple[int, int], str]:
    """The driver of each device, by its numbers: MAJOR:MINOR:DRIVER, with commas between."""
    found = {}
    for word in filter(None, text.split(",")):
        major, minor, driver = word.split(":")
        found[number(major), number(minor)] = driver
    return found


# The first lines of the forms that are read: of earlier recorders, and of today's, the last one.
VERSIONS = {f"binder side list {version}\n": version for version in (1, 2, 3)}


def version_of(first: str, path: str) -> int:
    """The version of a side list, by its first line. What is none is refused."""
    if first in VERSIONS:
        return VERSIONS[first]
    what = "is empty, and no" if not first else "is a capture, and no" if first.startswith("BNDRCAP") else "is not a"
    raise Stopped(4, f"{path} {what} side list of version 1, 2 or 3")


def refuse_others(paths: list[str]) -> None:
    """Stops before anything is read if one of the files is no side list."""
    for path in paths:
        try:
            with open(path, encoding="utf-8", errors="replace", newline="\n") as lines:
                version_of(lines.readline(PIECE), path)
        except OSError as error:
            raise Stopped(4, f"{path}: {error.strerror}") from error


def cut_last_line(out: BinaryIO) -> None:
    """Takes off what comes after the last whole line: a list that was cut may have a part of one there, or zeros."""
    end, found = out.tell(), -1
    while end and found < 0:
        begin = max(0, end - PIECE)
        out.seek(begin)
        found = out.read(end - begin).rfind(b"\n")
        end = begin + found + 1
    out.seek(end)
    out.truncate()


def with_lines(paths: list[str]) -> list[str]:
    """The side lists but for those that have only zeros, as after a loss of power, if another one has more."""
    some = []
    for path in paths if len(paths) > 1 else ():
        with errors_of(path):
            end = ended_text(path)
            if not end or end.length:
                some.append(path)
    return some or paths


def joined_sides(paths: list[str], to: pathlib.Path) -> str:
    """The side lists of the files of a flight recorder as one. Each of them begins with what was met before its file;
    of all but the first one, that is left out."""
    paths = with_lines(paths)
    refuse_others(paths)
    if len(paths) == 1:
        return paths[0]
    import shutil
    with open(to, "w+b", opener=for_owner) as out:
        for at, path in enumerate(paths):
            cut_last_line(out)
            with open(path, "rb") as lines:
                while at and (line := lines.readline(PIECE)):
                    if line.split(b" ", 2)[1:2] == [b"file"]:
                        break
                shutil.copyfileobj(lines, out)
    return str(to)


# The fields of `begin` since version 2. Lists of version 1 may lack some of them.
BEGIN_FIELDS = frozenset(("realtime", "boottime", "kernel", "machine", "payloads", "drivers"))

# The numbers of `kept`; which there are depends on why.
KEPT_FIELDS = ("after", "frame", "at", "pid", "since", "limit")

# The most addresses of a stack.
MOST_OF_STACK = 64

# The kinds of the error replies that the driver's log names, by their code words: BR_DEAD_REPLY, BR_FAILED_REPLY and
# BR_FROZEN_REPLY.
ANSWERS = {0x7205: 261, 0x7211: 273, 0x7212: 274}

# The time and the number of a frame, of at most 18 digits each, in a list of an earlier recorder.
FRAME_LINE = r"([0-9]{1,18}) frame ([0-9]{1,18})\n"

# The number of a frame and that of its stack.
CALL_LINE = r"[0-9]{1,18} call ([0-9]{1,18}) stack=([0-9]{1,18})\n"


def delta(word: str) -> int:
    """How much later a frame is than the one before it, with a sign if it is earlier."""
    size = decimal(word.removeprefix("-"), 63)
    return -size if word.startswith("-") else size


def frames_of(time: int, words: list[str]) -> tuple[int, list[int]]:
    """The frames of a line `frames`, by its time and the words after that: the number of the first one, and the times
    of all."""
    first, times = decimal(words[0], 64), list(itertools.accumulate(map(delta, words[1:]), initial=time))
    if first + len(times) > 2**64 or min(times) < 0 or max(times) >= 2**63:
        raise OverflowError(words)
    return first, times


class SideList:
    """Puts the lines of a side list into the database, but for the times of frames, which the loader took."""

    def __init__(self, database: sqlite3.Connection):
        self.database = database
        self.facts: dict[str, object] = {}
        self.version = 0
        self.calls: list[tuple[str, str]] = []
        self.frame: re.Match[str] | None = None
        self.told = 0
        self.copies: list[Copy] = []
        self.met: dict[int, str] = {}
        self.drivers: dict[tuple[int, int], str] | None = None
        self.openings_of: dict[int, list[tuple[int, int]]] = {}
        self.process_names = LastNames(database, "side_process", "pid")
        self.thread_names = LastNames(database, "side_thread", "tid")

    def last(self) -> int:
        """The last number that has come in the list, of a frame or of a lost frame."""
        return max(self.told, int(self.frame[2])) if self.frame else self.told

    def load(self, path: str, others: pathlib.Path | None = None) -> None:
        """Takes all lines of a side list; or those that the loader has left in a file, with the last line of a frame
        before each. A last line that was cut is left out."""
        try:
            with open(others or path, encoding="utf-8", errors="replace", newline="\n") as lines:
                self.version = version_of(next(lines, ""), path)
                self.facts["side_list"] = self.version
                self.read_lines(lines, path)
        except OSError as error:
            raise Stopped(4, f"{path}: {error.strerror}") from error
        self.flush()
        self.process_names.give()
        self.thread_names.give()
        self.name_processes()

    def name_processes(self) -> None:
        """A command line may say more than the name of a process. It is kept with spaces between its words."""
        told = self.database.execute(
            "SELECT rowid, name, command FROM side_process WHERE command NOTNULL").fetchall()
        self.database.executemany(
            "UPDATE side_process SET name = ?, command = ?, of_zygote = max(of_zygote, ?) WHERE rowid = ?",
            [(long_name(name, command), command.replace("\0", " "), is_app(name, command), row)
             for row, name, command in told])

    def begin_to_compare(self, finders: "Finders") -> None:
        """Has other processes compare the numbers of frames with those of the capture."""
        from viewer.database.finders import Query
        looks = side_belongs.looks_of(self.database, self.last())
        finders.begin([Query(name, looks.text[name]) for name in looks.long], [], looks.values)

    def doubt(self, finders: "Finders | None") -> str | None:
        """Refuses a list that certainly belongs to another capture. Returns the doubt if it may belong to another."""
        looks = side_belongs.looks_of(self.database, self.last())

        def first(name: str) -> tuple | None:
            if not finders or not finders.has(name):
                return self.database.execute(looks.text[name], looks.values).fetchone()
            with finders.found(self.database, name):
                return self.database.execute("SELECT * FROM found.rows").fetchone()
        why = side_belongs.why_other(self.database, self.last(), "end_ts" in self.facts, first("untold"))
        if why:
            raise Stopped(1, why)
        return side_belongs.doubt(self.database, self.last(), first("more") or (0, 0, 0))

    def read_lines(self, lines: Iterable[str], path: str) -> None:
        frame_in, call_in = re.compile(FRAME_LINE).match, re.compile(CALL_LINE).match
        for line in lines:
            # Nearly all lines may be those of a frame and of its stack, so they are not split like the others.
            if frame := frame_in(line):
                self.frame = frame
            elif call := call_in(line):
                self.add_call(call[1], call[2])
            elif line.endswith("\n"):
                self.take(line_of(line[:-1], path), path)

    def take(self, line: tuple[int, str, list[str], dict[str, str]], path: str) -> None:
        time, word, positional, keyed = line
        taker = getattr(self, f"take_{word}", None)
        if taker is None:
            return
        try:
            taker(time, positional, keyed)
        except (KeyError, ValueError, IndexError, OverflowError) as error:
            raise Stopped(4, f"{path}: the line '{word}' at {time} is not valid") from error

    def flush(self) -> None:
        self.database.executemany("INSERT OR REPLACE INTO side_call VALUES (?, ?)", self.calls)
        self.calls.clear()

    def add_call(self, seq: str, stack: str) -> None:
        self.calls.append((seq, stack))
        if len(self.calls) >= 100_000:
            self.flush()

    def take_frame(self, _: int, positional: list[str], __: dict[str, str]) -> None:
        """A frame with a number of more digits than FRAME_LINE has."""
        self.told = max(self.told, *numbers(positional, 1))

    def take_frames(self, time: int, positional: list[str], keyed: dict[str, str]) -> None:
        """The last number of the line counts."""
        if keyed:
            raise ValueError(keyed)
        first, times = frames_of(time, positional)
        self.told = max(self.told, signed(first + len(times) - 1))

    def take_begin(self, time: int, _: list[str], keyed: dict[str, str]) -> None:
        if self.version > 1 and not BEGIN_FIELDS <= keyed.keys():
            raise KeyError("begin")
        self.facts.update(begin_ts=time, realtime=number(keyed["realtime"]), kernel=keyed["kernel"],
                          machine=keyed["machine"], payloads=keyed.get("payloads"),
                          boottime=number(keyed["boottime"]) if "boottime" in keyed else None,
                          **(narrowed_of(keyed["narrowed"], unescaped).facts() if "narrowed" in keyed else {}))
        self.drivers = drivers_of(keyed["drivers"]) if "drivers" in keyed else None

    def take_file(self, _: int, positional: list[str], __: dict[str, str]) -> None:
        """The first file counts: above 1, a flight recorder has removed earlier ones."""
        self.facts.setdefault("first_file", *numbers(positional, 1))

    def take_kept(self, time: int, positional: list[str], keyed: dict[str, str]) -> None:
        """Why the capture was kept of a recording that went on, in a list that has nothing later."""
        numbered = {name: number(keyed[name]) for name in KEPT_FIELDS if name in keyed}
        self.facts.update({"kept": positional[0], "kept_ts": time, "kept_name": keyed.get("name", ""),
                           **{f"kept_{name}": value for name, value in numbered.items()}})

    def take_clocks(self, time: int, _: list[str], keyed: dict[str, str]) -> None:
        self.database.execute("INSERT OR REPLACE INTO side_clock VALUES (?, ?, ?)",
                              (time, number(keyed["realtime"]), number(keyed["boottime"])))

    def driver_of(self, major: int, minor: int) -> str | None:
        """The driver of a device. One that was made later has the driver of others of its major number."""
        if self.drivers is None:		# earlier recorders recorded only the driver in C
            return "C"
        if (major, minor) in self.drivers:
            return self.drivers[major, minor]
        near = {driver for key, driver in self.drivers.items() if key[0] == major}
        return near.pop() if len(near) == 1 else None

    def take_device(self, _: int, positional: list[str], keyed: dict[str, str]) -> None:
        self.database.execute("INSERT OR REPLACE INTO side_device VALUES (?, ?, ?)",
                              (*numbers(positional, 1), keyed["name"],
                               self.driver_of(number(keyed["major"]), number(keyed["minor"]))))

    def take_process(self, time: int, positional: list[str], keyed: dict[str, str]) -> None:
        device, process, pid = *numbers(positional, 2), number(keyed["pid"])
        self.database.execute(
            "INSERT OR REPLACE INTO side_process(rowid, device, process, pid, opening, met, name, opened)"
            " VALUES (?, ?, ?, ?, ?, ?, ?, ?)",
            (self.process_names.next_row(), device, process, pid, number(keyed["opening"]), keyed["met"],
             keyed["name"], time))
        self.openings_of.setdefault(pid, []).append((device, process))

    def take_command(self, _: int, positional: list[str], keyed: dict[str, str]) -> None:
        """The last command line counts. An earlier one may show that the zygote forked the process."""
        self.database.execute("UPDATE side_process SET command = ?, uid = ?, of_zygote = max(of_zygote, ?)"
                              " WHERE (device, process) = (?, ?)",
                              (keyed["name"], number(keyed["uid"]), is_not_yet_named(keyed["name"]),
                               *numbers(positional, 2)))

    def take_met(self, _: int, __: list[str], keyed: dict[str, str]) -> None:
        """A process that was there before the recording, by its pid: it may have no line of its own."""
        self.met[number(keyed["pid"])] = keyed["name"]

    def take_books(self, time: int, positional: list[str], keyed: dict[str, str]) -> None:
        moment, what = positional[:2]
        if not re.fullmatch("[a-z_]+ [a-z_]+", f"{moment} {what}"):  # they are a part of the names of files
            raise ValueError(positional)
        self.copies.append(Copy(moment, what, number(keyed["from"]), number(keyed["after"]), time,
                                number(keyed["bytes"])))

    def take_thread(self, _: int, positional: list[str], keyed: dict[str, str]) -> None:
        self.database.execute(
            "INSERT OR REPLACE INTO side_thread(rowid, device, process, thread, tid, name, from_seq, bits)"
            " VALUES (?, ?, ?, ?, ?, ?, ?, ?)",
            (self.thread_names.next_row(), *numbers(positional, 3), number(keyed["tid"]), keyed["name"],
             self.last() + 1, number(keyed.get("bits", "64"))))

    def take_name(self, _: int, __: list[str], keyed: dict[str, str]) -> None:
        """The last name counts. A process has the name of its first thread. What has ended keeps its name."""
        pid, tid, name = number(keyed["pid"]), number(keyed["tid"]), keyed["name"]
        self.thread_names.note(tid, name)
        if tid == pid:
            self.process_names.note(pid, name)

    def take_lost(self, _: int, positional: list[str], keyed: dict[str, str]) -> None:
        who = [number(keyed[name]) if name in keyed else None for name in ("device", "process", "thread")]
        self.database.execute("INSERT OR REPLACE INTO side_lost VALUES (?, ?, ?, ?, ?)",
                              (*numbers(positional, 1), *who, keyed["why"]))
        self.told = max(self.last(), *numbers(positional, 1))

    def take_calls(self, _: int, positional: list[str], keyed: dict[str, str]) -> None:
        self.database.execute("INSERT OR REPLACE INTO side_calls VALUES (?, ?, ?, ?, ?)",
                              (*numbers(positional, 3), number(keyed["made"]), number(keyed["served"])))

    def take_handle(self, _: int, positional: list[str], __: dict[str, str]) -> None:
        self.database.execute("INSERT OR REPLACE INTO side_handle VALUES (?, ?, ?)", numbers(positional, 3))

    def take_missed(self, time: int, positional: list[str], keyed: dict[str, str]) -> None:
        self.database.execute("INSERT INTO side_missed(count, what, from_seq, after, ts) VALUES (?, ?, ?, ?, ?)",
                              (*numbers(positional, 1), keyed["what"], number(keyed["from"]), number(keyed["after"]),
                               time))

    def take_failed(self, time: int, _: list[str], keyed: dict[str, str]) -> None:
        """What the driver logged of a transaction that failed. The answer is a code word."""
        names = ("pid", "tid", "to", "handle", "data", "offsets")
        self.database.execute(
            "INSERT INTO side_failed(what, pid, tid, to_pid, handle, data_size, offsets_size, answer, errno, from_seq,"
            " after, ts) VALUES (?, ?, ?, ?, ?, ?, ?, ?, ?, ?, ?, ?)",
            (keyed["what"], *(number(keyed[name]) for name in names), ANSWERS.get(number(keyed["answer"])),
             *(number(keyed[name]) for name in ("errno", "from", "after")), time))

    def take_overrun(self, time: int, _: list[str], keyed: dict[str, str]) -> None:
        self.database.execute("INSERT INTO side_overrun VALUES (?, ?, ?)",
                              (number(keyed["from"]), number(keyed["after"]), time))

    def take_descriptors(self, time: int, positional: list[str], keyed: dict[str, str]) -> None:
        """How many descriptors a process had open, and how many it may have."""
        self.database.execute("INSERT INTO side_descriptors(device, process, ts, open, most, why)"
                              " VALUES (?, ?, ?, ?, ?, ?)",
                              (*numbers(positional, 2), time, number(keyed["open"]), number(keyed["limit"]),
                               keyed["why"]))

    def take_call(self, _: int, positional: list[str], keyed: dict[str, str]) -> None:
        """A line that is not of the usual form."""
        seq, = numbers(positional, 1)
        self.database.execute("INSERT OR REPLACE INTO side_call VALUES (?, ?)", (seq, number(keyed["stack"])))

    def take_stack(self, _: int, positional: list[str], keyed: dict[str, str]) -> None:
        stack, memory, pid = *numbers(positional, 1), number(keyed["memory"]), number(keyed["pid"])
        self.database.executemany("INSERT OR REPLACE INTO side_pc VALUES (?, ?, ?, ?, ?)",
                                  [(stack, idx, memory, pid, address(word))
                                   for idx, word in enumerate(keyed["pcs"].split(",", MOST_OF_STACK)[:MOST_OF_STACK])])

    def take_map(self, _: int, positional: list[str], keyed: dict[str, str]) -> None:
        """The address of a file that is not known is the place in it."""
        start, end, offset = (address(keyed[name]) for name in ("start", "end", "offset"))
        known, build_id = keyed["address"] != "-", keyed["build-id"]
        if not re.fullmatch("-|([0-9a-f]{2}){1,64}", build_id):
            raise ValueError(build_id)
        self.database.execute("INSERT OR REPLACE INTO side_map VALUES (?, ?, ?, ?, ?, ?)",
                              (*numbers(positional, 1), start, end, address(keyed["address"]) if known else offset,
                               None if build_id == "-" else build_id, keyed["name"]))

    def take_unstacked(self, _: int, positional: list[str], keyed: dict[str, str]) -> None:
        self.database.execute("INSERT INTO side_unstacked(count, what, from_seq, after) VALUES (?, ?, ?, ?)",
                              (*numbers(positional, 1), keyed["what"], number(keyed["from"]), number(keyed["after"])))

    def take_end(self, time: int, positional: list[str], keyed: dict[str, str]) -> None:
        after, what = number(keyed["after"]), positional[0]
        if what == "thread":
            self.database.execute(
                f"UPDATE side_thread SET name = iif(ended IS NULL, {self.thread_names.name}, name), ended_after = ?,"
                " ended = ?, why = ? WHERE (device, process, thread) = (?, ?, ?)",
                (after, time, keyed["why"], *numbers(positional[1:], 3)))
        elif what == "opening":
            self.database.execute(
                f"UPDATE side_process SET name = {self.process_names.name}, ended_after = ?, ended = ?"
                " WHERE (device, process) = (?, ?) AND ended IS NULL", (after, time, *numbers(positional[1:], 2)))
        elif what == "pid":
            pid, = numbers(positional[1:], 1)
            self.database.executemany(
                f"UPDATE side_process SET name = {self.process_names.name}, ended_after = ?, ended = ?"
                " WHERE (device, process) = (?, ?) AND pid = ? AND ended IS NULL",
                [(after, time, *opening, pid) for opening in self.openings_of.pop(pid, ())])
        elif what == "recording":
            self.facts.update(end_ts=time, lost=number(keyed["lost"]))
