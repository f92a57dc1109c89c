"""What timelines of many transactions take, and what their database."""

import pathlib
import sqlite3
import subprocess
import sys

from checks.kit.captures import HEADER
from checks.kit.programs import ROOT
from checks.kit.runs import measured_run
from checks.kit.traffic import PROCESSES, THREADS, frames_within

BEGIN = "binder side list 1\n1000000 begin realtime=1700000000000000000 kernel=6.1 machine=x86_64\n"
PROCESS = "1000000 process 0 {0} pid={0} opening={0} met=from-start name=process\n"
THREAD = "1000000 thread 0 {0} {1} pid={0} tid={1} name=thread\n"

# A timeline of a database that is there.
TIMELINE = """
import pathlib, sys
from viewer.database.sqlite import open_database
from viewer.timeline import trace
from viewer.timeline.tracks import Window
trace.write(open_database(pathlib.Path(sys.argv[1])), pathlib.Path(sys.argv[2]), Window(), sys.argv[2])
"""


def side_begin() -> str:
    """The lines of a side list before the frames: who takes part."""
    lines = [BEGIN]
    for number in range(1000, 1000 + 7 * PROCESSES, 7):
        lines += [PROCESS.format(number), *(THREAD.format(number, number + thread) for thread in range(THREADS))]
    return "".join(lines)


def write_traffic(capture: pathlib.Path, side: pathlib.Path, most: int) -> None:
    """Traffic of at most so many bytes, and a side list with a time for each frame, five microseconds apart."""
    with open(capture, "wb") as out, open(side, "w", encoding="utf-8") as times:
        times.write(side_begin())
        out.write(HEADER)
        for number, frame in enumerate(frames_within(most), 1):
            out.write(frame)
            times.write(f"{1_000_000 + 5000 * number} frame {int.from_bytes(frame[:8], 'little')}\n")


# The tables of which a timeline is made, and what their columns rise by when the capture comes once more.
REPEATED = ("raw_record", "raw_send", "raw_delivery", "raw_call", "raw_frame", "side_time", "finding", "finding_head")
RISES = {**dict.fromkeys(("place", "freed_by", "call", "send", "delivery", "confirmed", "refused", "parent", "closer",
                          "attachment"), "bytes"), "seq": "last", "ts": "time", "id": "findings"}


def repeat(made: pathlib.Path, times: int) -> None:
    """Makes a database in which the records, the times and the findings of this one come so many times, one after
    another."""
    database = sqlite3.connect(made, isolation_level=None)
    for setting in ("journal_mode=OFF", "synchronous=OFF"):  # a larger cache would count as memory of what is measured
        database.execute(f"PRAGMA {setting}")
    names = ("bytes", "last", "time", "findings")
    rise = dict(zip(names, database.execute(
        "SELECT bytes, last_seq, (SELECT max(ts) - min(ts) + 5000 FROM side_time), (SELECT max(id) FROM finding)"
        " FROM raw_capture").fetchone()))
    database.execute("BEGIN")
    for table in REPEATED:
        columns = [name for _, name, *_ in database.execute(f"PRAGMA table_info({table})")]
        most, = database.execute(f"SELECT max(rowid) FROM {table}").fetchone()
        risen = ", ".join(f"{name} + :{RISES[name]}" if name in RISES else name for name in columns)
        for number in range(1, times):
            database.execute(f"INSERT INTO {table} SELECT {risen} FROM {table} WHERE rowid <= :most",
                             {"most": most, **{name: number * by for name, by in rise.items()}})
    database.execute("UPDATE raw_capture SET bytes = bytes * :times, last_seq = last_seq * :times,"
                     " records = records * :times, frames = frames * :times", {"times": times})
    database.execute("UPDATE capture SET value = value + ? WHERE key = 'until_ts'", ((times - 1) * rise["time"],))
    database.execute("COMMIT")
    database.close()


def took(what: str, words: list[object]) -> None:
    status, used = measured_run(list(map(str, words)), stdout=subprocess.DEVNULL)
    if status:
        sys.exit(f"checks/trace: {words[0]} ended with status {status}")
    print(f"{what:38}{used.processor:8.1f} s of the processor {used.clock:8.1f} s {used.peak / 1024:8.0f} MiB",
          flush=True)


def text_bytes(path: pathlib.Path) -> int:
    """The length of what is packed."""
    packed = subprocess.Popen(["gzip", "-cd", path], stdout=subprocess.PIPE)
    assert packed.stdout
    return sum(map(len, iter(lambda: packed.stdout.read(2**20), b"")))


def print_cost(room: pathlib.Path, most: int, times: int = 1) -> None:
    """Prints what timelines of so many bytes of traffic take, and what they have. The traffic comes so many times."""
    capture, side, made = (room / name for name in ("traffic.cap", "traffic.side", "traffic.db"))
    write_traffic(capture, side, most)
    took("the database, by ./view", [ROOT / "view", capture, "--side", side, "--groups", "--database", made])
    if times > 1:
        repeat(made, times)
    outs = [room / name for name in ("out.json.gz", "out.pftrace", "out.pftrace.gz")]
    for out in outs:
        took(f"the timeline of it, {out.name}", [sys.executable, "-c", TIMELINE, made, out])
    database = sqlite3.connect(made)
    sends, = database.execute("SELECT count(*) FROM send WHERE kind LIKE 'BC_TRANSACTION%'").fetchone()
    records, = database.execute("SELECT records FROM raw_capture").fetchone()
    print(f"{times} times {capture.stat().st_size} bytes, {records} records, {sends} transactions; JSON of"
          f" {text_bytes(outs[0])} bytes; files of", *(f"{out.stat().st_size}, {out.name};" for out in outs))
