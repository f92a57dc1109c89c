"""The kinds of differences that may be found in a scenario, as a table at the end: what each is of, and how it is
found. Each function yields a section, whom and what it is of, what came and what is due; if both are the same, it is no
difference."""

import contextlib
import functools
import pathlib
import re
import sqlite3
import struct
import subprocess
import tempfile
from collections import Counter, defaultdict
from typing import TYPE_CHECKING, Callable, Iterable, NamedTuple

from checks.kit.captures import BR_TRANSACTION, BR_TRANSACTION_SEC_CTX
from checks.kit.frames import frames_of
from checks.kit.programs import ROOT
from checks.kit.side_lists import packed
from checks.recorder.driver import side_form
from checks.recorder.driver.recording import Recording
from checks.recorder.driver.stacked import stack_differences
from checks.viewer.page.common import groups_due, groups_of
from viewer.database import loading
from viewer.page.capture import Capture

if TYPE_CHECKING:
    from checks.recorder.driver.compare import Scenario

HERE = pathlib.Path(__file__).resolve().parent


def lines_of(name):
    """The lines of a list, as words; the comment before a line is its reason."""
    reason = ""
    for line in (HERE / name).read_text("utf-8").splitlines():
        if line.startswith("#"):
            reason = line[1:].strip()
        elif line.strip():
            yield line.split(), reason


# ---- what a scenario did on purpose, which the books do not have

def purposes(scenario):
    """The numbers that the heads of the report must have: those that purposes.txt names, and otherwise no fault."""
    heads = {("strays", "strays"): 0, ("frees", "stray"): 0, ("flags", "flags"): 0, ("objects", "bad"): 0,
             ("side", "left-out"): 0, ("side", "unattached"): 0}
    for words, _ in lines_of("purposes.txt"):
        if words[0] == scenario:
            section, name, number = words[1:]
            heads[section, name] = None if number == "any" else int(number)
    return heads


def purpose_differences(scenario, report, recording):
    side = {"left-out": recording.left_out, "unattached": recording.unattached}
    for (section, name), number in purposes(scenario).items():
        found = side[name] if section == "side" else report.head(section, name)
        if number is not None:
            yield section, "all", name, found, number


# ---- the two recordings

def threads(frames, openings):
    """The frames of each thread, in order. An opening is its device, its process id, and which of these it is."""
    out = defaultdict(list)
    for frame in frames:
        if frame.commands:
            out[openings[frame.device, frame.process], frame.thread].append(frame)
    return out


def numbered(devices, processes):
    """Openings by device, process id and rank among these: the two recorders number devices in different orders."""
    counts, out = Counter(), {}
    for device, number, pid in processes:
        counts[device, pid] += 1
        out[device, number] = devices[device], pid, counts[device, pid]
    return out


def witness_differences(recording, folder):
    """Compares the frames of each device, process and thread, in order: their bytes and their attachments. If these are
    redacted, only their lengths are compared."""
    def bytes_of(frame):
        return frame.direction, frame.commands, len(frame.attached) if recording.is_redacted else frame.attached
    names = (folder / "names").read_text("utf-8")
    devices = {int(a): b for a, b in re.findall(r"^device (\d+) name (\S+)", names, re.M)}
    processes = re.findall(r"^process (\d+) (\d+) pid (\d+)", names, re.M)
    openings = numbered(devices, [tuple(map(int, words)) for words in processes])
    frames = sorted(frames_of((folder / "frames").read_bytes(), 0), key=lambda frame: frame.sequence)
    theirs = threads(frames, openings)
    mine = threads(recording.frames, numbered(recording.devices, [(*key, pid) for key, pid in recording.pids.items()]))
    for key in sorted(set(mine) | set(theirs)):
        one, two = mine.get(key, []), theirs.get(key, [])
        same = sum(bytes_of(a) == bytes_of(b) for a, b in zip(one, two))
        if not same == len(one) == len(two):
            (device, pid, _), thread = key
            yield "witness", f"{device}-{pid}", thread, f"{same}-of-{len(one)}", len(two)


# ---- one scenario

def lost_differences(recording):
    """Each number that no frame has must have its line in the side list, and each frame its time there."""
    told = {number for number, _ in recording.lost}
    used = [frame.sequence for frame in recording.frames]
    first = used[0] if recording.is_cut else 1
    unused = set(range(first, used[-1] + 1)) - set(used) if used else set()
    yield "lost", "all", "untold", len(unused - told), 0
    yield "lost", "all", "untimed", len(set(used) - recording.timed), 0
    for why, count in sorted(Counter(why for _, why in recording.lost).items()):
        yield "lost", "all", why, count, 0


def form_differences(recording, is_stored):
    """Each side list has the form that its page describes, and a stored one of an earlier recorder has it with many
    frames in a line. In another form it is told."""
    for path in recording.sides:
        text = path.read_text("utf-8", errors="surrogateescape")
        text = packed(text) if is_stored else text
        if wrong := side_form.faults(text):
            yield "form", path.stem, wrong[0][:80], len(wrong), 0
        elif untold := sum(not side_form.faults(one) for one in side_form.wrong_forms(text)):
            yield "form", path.stem, "untold", untold, 0


def end_differences(recording):
    """A recording ends at one moment: no frame comes after it, nothing is told to have ended after it, and it names the
    last number."""
    if recording.end is None:
        return
    time, after = recording.end
    numbers = [*(number for number, _ in recording.lost), *(frame.sequence for frame in recording.frames)]
    yield "end", "all", "late", sum(one > time for one in recording.times), 0
    yield "end", "all", "ended", sum(one > time for one in recording.ends), 0
    yield "end", "all", "after", after, max(numbers, default=0)


# What a scenario makes the recorder miss.
MISSED = {"crowd": "calls-without-number", "old-protocol": "calls-of-32-bits"}
COUNTS = {  # by the word of the side list: how the last line of the recorder names the same
    "events": "events missed", "calls-without-number": "calls without a number",
    "calls-of-32-bits": "calls of 32-bit programs, not recorded"}


def missed_differences(name, recording, output):
    """What the side list says was missed must be what the recorder counted in all, and what the scenario wanted."""
    for what, words in COUNTS.items():
        counted = sum(map(int, re.findall(rf"; {words} (\d+)", output)))
        yield "missed", "all", what, recording.missed[what], counted
        yield "missed", "all", f"any-{what}", recording.missed[what] > 0, MISSED.get(name) == what


MOST_FILES = 4  # that a flight recorder keeps


def flight_differences(recording, folder):
    """A flight recorder keeps the newest files, each with a side list that says whose the frames in it are."""
    yield "flight", "all", "files", int((folder / "most-files").read_text("utf-8")), MOST_FILES
    yield "flight", "all", "captures", len(recording.captures), MOST_FILES
    yield "flight", "all", "removed", recording.is_cut, True
    yield "flight", "all", "side", [path.stem for path in recording.sides], [path.stem for path in recording.captures]
    for path in recording.sides:
        one = Recording(folder, path.stem)
        strangers = {(frame.device, frame.process, frame.thread) for frame in one.frames} - set(one.tids)
        yield "flight", path.stem, "strangers", len(strangers), 0


def kept_differences(scenario):
    """One set was kept while the recording went on: because of the call that hangs, whole, and the page begins with it;
    and nothing was lost."""
    if " frames, 0 lost; files removed " not in scenario.output or " has been open for 5." not in scenario.output:
        yield "kept", "all", "said", scenario.output.strip(), "0 lost"
    folders = sorted(scenario.folder.glob("capture.kept-*"))
    yield "kept", "all", "sets", len(folders), 1
    for folder in folders:
        yield from set_differences(Recording(folder), folder)


def set_differences(recording, folder):
    numbers = [frame.sequence for frame in recording.frames]
    yield "kept", folder.name, "follows", numbers == list(range(numbers[0], numbers[-1] + 1)), True
    yield "kept", folder.name, "lost", recording.lost, []
    yield "kept", folder.name, "many-files", len(recording.captures) > MOST_FILES, False
    yield "kept", folder.name, "why", recording.told(r" kept (hang) .* limit=5000000000 name=$"), ["hang"]
    yield from end_differences(recording)
    yield from form_differences(recording, False)
    yield from copy_differences("flight", recording, folder)
    shown = subprocess.run([ROOT / "view", "--groups", *recording.captures], stdout=subprocess.PIPE,
                           stderr=subprocess.DEVNULL, encoding="utf-8", check=False)
    if not re.match(r"kept\thang\t.*kept because .* has been open for 5\.\d s\tcamera_app", shown.stdout):
        yield "kept", folder.name, "page", shown.stdout[:200], "the call that hangs"


# KiB of the recorder's own memory: 256 MiB of frames that wait, and at most what is in its ring.
MOST_MEMORY = 352 << 10


def hoard_differences(output, folder):
    """While a write is held up, what is kept of later frames is bounded: that write is lost, and nothing else."""
    memory = int((folder / "memory").read_text("utf-8"))
    if not 0 < memory < MOST_MEMORY:
        yield "hoard", "all", "memory", memory, MOST_MEMORY
    if not re.search(r" frames, 1 lost \(held-too-long 1\); files removed \d+; 4 files, ", output):
        yield "hoard", "all", "lost", output.strip(), "held-too-long 1"


SECRETS = {which: bytes((which * 73 + i * 151 + (i * i >> 3) * 29 + 17) & 255 for i in range(64))
           for which in range(1, 6)}
TO_CLEAR = 5  # the secret that is sent with TF_CLEAR_BUF
TOKEN = "org.example.IVault".encode("utf-16-le")


def secret_differences(recording):
    """Which secrets of the scenario can be found, by eight bytes of them, in what the recorder wrote."""
    written = b"".join(path.read_bytes() for path in (*recording.captures, *recording.sides))
    for which, secret in SECRETS.items():
        found = sum(secret[at:at + 8] in written for at in range(len(secret) - 7))
        due = 0 if which == TO_CLEAR or recording.is_redacted else len(secret) - 7
        yield "secret", "all", which, found, due
    yield "secret", "all", "token", TOKEN in written, True


# ---- command lines, and the driver's books

LONGEST_COMMAND = 256
USER = 10123
COMMANDS = (  # of each process of the scenario people, in order: the users, and the command lines
    [(0, b"/scenarios.static\0people\0/out/people")], [(0, b"com.example.mail\0person\0a")],
    [(0, b"<pre-initialized>, and room for the name that it gets\0person\0z"),
     (0, b"com.example.a.name.of.many.letters:remote")],
    [(0, b"odd\n\\x41 \t\xff\xc3\xa9\0person\0o\0two words\0\0last")], [(0, b"\0person\0n")],
    [(0, b"/system/bin/before-exec\0person\0x"), (0, b"after-exec\0person\0e")],
    [(USER, b"/system/bin/other-user\0person\0u")], [(0, b"l" * LONGEST_COMMAND)])


def program_in(command):
    """What `--redact` keeps of a command line: what the program is called."""
    word = command.partition(b"\0")[0]
    name = re.match(rb"[^\0-\x20]*", word)[0]
    return name if b"/" not in word else word[word.rindex(b"/"):] if name == word else b""


def command_differences(recording):
    """The command lines of the scenario; only what the programs are called if payloads are redacted."""
    came = defaultdict(list)
    for device, number, user, name in recording.told(r"^\d+ command (\d+) (\d+) after=\d+ uid=(\d+) name=(.*)$"):
        raw = re.sub(rb"\\x([0-9a-f]{2})", lambda found: bytes([int(found[1], 16)]),
                     name.encode(errors="surrogateescape"))
        came[int(device), int(number)].append((int(user), raw))
    for nth, due in enumerate(COMMANDS):
        key = sorted(recording.names)[nth]
        if recording.is_redacted:
            due = [(user, program_in(text)) for user, text in due]
        yield "names", recording.names[key], "command", came[key], due


BOOKS = [(when, which) for when in ("begin", "end") for which in ("state", "transactions", "stats")]


def copy_differences(how, recording, folder):
    """Each copy of the driver's books has the length that the side list names. Only a recorder that was killed has none
    at the end, and the list of the beginning may be gone where old files are."""
    told = {(when, which): int(size) for when, which, size in recording.told(
        r"^\d+ books (\S+) (\S+) from=\d+ after=\d+ bytes=(\d+)$")}
    for when, which in BOOKS:
        if when == ("end" if how == "killed" else "begin" if recording.is_cut else None):
            continue
        path = folder / f"capture.{when}.{which}"
        size = path.stat().st_size if path.exists() else 0
        yield "books", "all", f"{when}-{which}", told.get((when, which)), size


@contextlib.contextmanager
def database_of(folder):
    """The database that `./view` makes of the capture."""
    with tempfile.TemporaryDirectory() as room:
        made = pathlib.Path(room) / "made.db"
        loading.database_of(ROOT, [str(folder / "capture-1.cap")], str(folder / "capture.side"), made,
                            lambda _: None)[0].close()
        yield sqlite3.connect(made)


def view_differences(folder):
    """What `./view` says of the scenario before: its groups, and that the report agrees with the driver's books."""
    with database_of(folder) as database:
        facts = dict(database.execute("SELECT key, value FROM capture WHERE key GLOB 'books_*'"))
        came, due = groups_of(database), groups_due("before")
        for group in sorted(set(came) ^ set(due)):
            yield "view", "all", "-".join(group[:2]), group in came, group in due
        for who, what, report, books in database.execute(
                "SELECT who, what, report, books FROM disagreement JOIN who USING (upid)"):
            yield "view", who, what, report, books
        rules = dict(database.execute("SELECT rule, count(*) FROM finding GROUP BY 1"))
        yield "view", "all", "rules", rules, RULES_BEFORE
        yield "view", "all", "facts", facts, FACTS_BEFORE


# The rules of all findings of the scenario before, and how many of its openings are compared at the end.
RULES_BEFORE = {"P2": 5, "H7": 1, "H6": 1, "H2": 1, "H1": 1, "F2": 1, "D4": 1}
FACTS_BEFORE = {"books_doubt": None, "books_compared": 5, "books_left_out": 0}


# ---- sends that are refused in the recording, and go on after it

GOES_ON = {"refusals"}
NO_HANDLE, NO_SPACE = 22, 28  # errors in the log
FEW_REFUSED = 3  # with the first one


def reason_differences(scenario):
    """Each refused send has its reason from the driver's log, which has others from after the recording. The driver in
    Rust has no log."""
    with database_of(scenario.folder) as database:
        def count(of):
            return database.execute(f"SELECT count(*) FROM {of}").fetchone()[0]
        refused, logged = count("raw_send WHERE refused NOTNULL"), count("side_failed")
        came = dict(database.execute("SELECT errno, count(*) FROM refusal GROUP BY 1"))
    due = {} if scenario.driver == "Rust" else {NO_HANDLE: FEW_REFUSED, NO_SPACE: refused - FEW_REFUSED}
    yield "reasons", "all", "known", came, due
    if scenario.driver == "C" and logged <= refused:
        yield "reasons", "all", "later", logged, refused


# ---- a process that changes its writes under way

CHANGED, CHANGING = ("changed-record", "changed-inside"), "changing"  # the scenarios, and the process
# What the report lacks then: what the lost writes have.
OF_CHANGING = {("codes by process", CHANGING, "BC_TRANSACTION"), ("codes by process", CHANGING, "BC_ENTER_LOOPER"),
               ("codes", "all", "BC_TRANSACTION"), ("codes", "all", "BC_ENTER_LOOPER"), ("oneway", "all", "under way"),
               ("lost", "all", "broken")}


@functools.cache
def lost_on_page(folder):
    """What the page says of lost frames."""
    with database_of(folder) as database:
        return Capture(database, ["capture-1.cap"]).asked("lost")


def changed_differences(recording, output, folder):
    """The writes that the process changed are lost as broken, and nothing else is: so the last line, the side list and
    the page say, which name the process. The calls of the others go on after them."""
    changed = sum(map(int, re.findall(r"^changing: user 1000, (\d+) writes were changed$", output, re.M)))
    losers = [(recording.names.get(who), why, count) for (who, why), count in recording.losers.items()]
    yield "changed", "all", "any", changed > 0, True
    yield "changed", "all", "side", losers, [(CHANGING, "broken", changed)]
    if f" frames, {changed} lost (broken {changed}); 1 file, " not in output:
        yield "changed", "all", "last-line", output.strip(), changed
    last = max((number for number, _ in recording.lost), default=0)
    after = {recording.names[frame.device, frame.process] for frame in recording.frames if frame.sequence > last}
    yield "changed", "all", "after", sorted({"client", "later"} & after), ["client", "later"]
    rows = [(why, count, who.split(" ")[0], most) for why, count, who, most in lost_on_page(folder)]
    yield "changed", "all", "page", rows, [("broken", changed, CHANGING, changed)]


# ---- namespaces, and openings from before the recording

OWN_NUMBERS = 4194304  # numbers from here on are no ids of Linux


def sender_differences(recording):
    """The sender of a call that is delivered is a process by its id in the namespace of the receiver."""
    for key, (_, pid) in recording.spaces.items():
        if key[1] < OWN_NUMBERS:
            yield "senders", recording.names[key], "number", key[1], OWN_NUMBERS
    for _, _, frame, word, payload in recording.records():
        if word not in (BR_TRANSACTION, BR_TRANSACTION_SEC_CTX):
            continue
        flags, sender = struct.unpack_from("<Ii", payload, 20)
        here = recording.spaces.get((frame.device, frame.process), (0, 0))[0]
        ids = (set(recording.pids.values()) if not here
               else {pid for space, pid in recording.spaces.values() if space == here})
        if not flags & 1 and sender and sender not in ids:
            yield "senders", recording.names[frame.device, frame.process], "unknown", sender, 0


def bits_differences(how, recording):
    """The side list says of each thread that made 32-bit calls that it did."""
    yield "names", "all", "bits", recording.bits["" if how == "record32" else " bits=32"], 0


OPENINGS_BEFORE = 4  # of the load: manager, service and two clients
# What the output of a guest has for these ways to record.
SAYS = {
    "drivers": ["is not recorded: ", "the absent one alone: status 1", " are not recorded, and those of "],
    "untraced": ["the Binder driver in Rust is not recorded: ", "without tracepoints: status 1",
                 "recorded without them: status 1"],
    "two-drivers": ["driver in C, devices hwbinder; driver in Rust, devices "]}


# How it is recorded if the recorder does not record all, from beginning to end.
PARTIAL = {"late", "hidden", "before", "beyond", "killed", "stopped", "full", "narrow", "flight", "hoard", "kept"}
MOST_AFTER = 200_000_000  # nanoseconds from the last frame to the end, if the scenario goes on after it
MOST_CUT = 8192  # bytes of a last frame of the load that a killed recorder may leave cut


def partly_lost(scenario):
    """What a recorder that does not record all loses is told, and is lost for lack of room where that is small."""
    recording, why = scenario.recording, {why for _, why in scenario.recording.lost}
    yield from (it for it in lost_differences(recording) if it[2] in ("untold", "untimed", "broken", "not-written"))
    if scenario.how == "full" and "ring-full" not in why:
        yield "lost", "all", "ring-full", 0, "some"
    if scenario.how == "narrow" and not why:
        yield "lost", "all", "frames", 0, "some"


def cut_differences(scenario):
    """A recording that begins late or is cut has frames, and no more than a frame of it is cut."""
    recording = scenario.recording
    if scenario.how in ("late", "hidden"):
        yield "names", "all", "met", recording.met, OPENINGS_BEFORE
    if recording.cut > MOST_CUT:
        yield "capture", "all", "cut", recording.cut, 0
    yield "capture", "all", "frames", bool(recording.frames), True
    if scenario.how == "late" and (lasted := recording.lasted_after_frames()) > MOST_AFTER:
        yield "end", "all", "without-frames", lasted, MOST_AFTER


def said_differences(scenario):
    for words in SAYS.get(scenario.how, ()):
        yield "status", "all", f"says-{words}", words in scenario.output, True


def status_differences(scenario):
    yield "status", "all", "program", scenario.status, "0"


class Kind(NamedTuple):
    """A kind of differences: the sections of the table that it is of, the scenarios of which it is looked for, and how
    it is found."""
    sections: str
    of: Callable[["Scenario"], bool]
    found: Callable[["Scenario"], Iterable[tuple]]


def played(*ways):
    return lambda scenario: scenario.how in ways


def named(*names):
    return lambda scenario: scenario.name in names


def every(_):
    return True


def partial(scenario):
    return scenario.how in PARTIAL


def whole(scenario):
    return scenario.how not in PARTIAL


KINDS = [
    Kind("capture lost names books end form", partial, partly_lost),
    Kind("capture names end", partial, cut_differences),
    Kind("", played("flight"), lambda it: flight_differences(it.recording, it.folder)),
    Kind("", played("kept"), kept_differences),
    Kind("", played("hoard"), lambda it: hoard_differences(it.output, it.folder)),
    Kind("", played("flight", "hoard", "before", "beyond", "kept"), status_differences),
    Kind("view", lambda it: partial(it) and it.name == "before", lambda it: view_differences(it.folder)),
    Kind("reasons", played("beyond"), reason_differences),
    Kind("purpose capture status names books", whole, lambda it: purpose_differences(it.name, it.report, it.recording)),
    Kind("lost", whole, lambda it: lost_differences(it.recording)),
    Kind("senders", whole, lambda it: sender_differences(it.recording)),
    Kind("names", whole, lambda it: bits_differences(it.how, it.recording)),
    Kind("status", whole, said_differences),
    Kind("status", whole, status_differences),
    Kind("names", named("people", "people-redacted"), lambda it: command_differences(it.recording)),
    Kind("secret", named("secret", "secret-redacted"), lambda it: secret_differences(it.recording)),
    Kind("missed", lambda it: whole(it) and it.how != "stored",
         lambda it: missed_differences(it.name, it.recording, it.output)),
    Kind("changed", named(*CHANGED), lambda it: changed_differences(it.recording, it.output, it.folder)),
    Kind("witness", played("both"), lambda it: witness_differences(it.recording, it.folder)),
    Kind("stacks", lambda it: whole(it) and it.has_stacks,
         lambda it: stack_differences(it.recording, it.name.endswith("frameless"), it.program)),
    Kind("books", every, lambda it: copy_differences(it.how, it.recording, it.folder)),
    Kind("end", every, lambda it: end_differences(it.recording)),
    Kind("form", every, lambda it: form_differences(it.recording, it.is_stored)),
]
