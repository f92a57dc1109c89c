"""Compares the raw tables that `./listing --tables` writes, and the stream of rows of its lines, with a second reading
in Python.

    checks/run tables_again                  all stored captures, and a share of those that are made
    checks/run tables_again -- --all         all that are made too: 2,000 changed ones, 200 of made-up traffic, and 800
                                             small ones
    checks/run tables_again -- CASE..        these alone, as `stored/driver/leaks`, `changed/17`, `made`
    checks/run tables_again -- --show CASE   tells each row that differs, in place of the first one of a table

kit/tables/ has the reading. All its rules are in docs/DATABASE.md, viewer/database/schema.sql and docs/COMMANDS.md.
Each row of each of the fourteen tables must be the same, column by column, and the status must be 2 exactly if the
capture is malformed. A table that is written alone, one of each stored capture, must be the same as among all. The
stream of a case is that of all records, or of those at some places, with or without objects; it must be the same to the
byte. Of what hardly ever comes each table is written alone, and all is streamed. The payloads of kit/tokens.py must
name what they are made to name, also for the second reading. A changed capture is a stored one of which bytes or frames
are changed, cut, lost or joined with those of another one, in one file or in several. A made one is of
kit/simulated.py, of kit/traffic.py, or of many transactions that are alike, a small one of kit/small_traffic.py, and
one of a pair of kit/pair_cases.py. A case is always the same capture.
"""

import argparse
import itertools
import os
import pathlib
import random
import shutil
import subprocess
from concurrent.futures import ProcessPoolExecutor
from functools import cache
from typing import Iterable, Iterator

from checks.hostile.mutations import changed_capture
from checks.kit import tokens
from checks.kit.captures import (BC_ACQUIRE, BC_CLEAR_FREEZE_NOTIFICATION, BC_FREEZE_NOTIFICATION_DONE, BC_REPLY,
                                 BC_REPLY_SG, BC_REQUEST_FREEZE_NOTIFICATION, BC_TRANSACTION, BC_TRANSACTION_SG,
                                 BR_CLEAR_FREEZE_NOTIFICATION_DONE, BR_FAILED_REPLY, BR_FROZEN_BINDER, BR_NOOP,
                                 BR_REPLY, BR_TRANSACTION, BR_TRANSACTION_COMPLETE, BR_TRANSACTION_SEC_CTX, COMMANDS,
                                 ENTER, HEADER, HEADER_2, MAX_32, MAX_64, each, each_long, entry, frame, frozen, read,
                                 record, transaction, u32, u64, watch, write)
from checks.kit.checking import FLAG, Fail, check, compare
from checks.kit.frames import frames_of
from checks.kit.pair_cases import PAIR_CASES
from checks.kit.programs import ROOT, TABLES
from checks.kit.rows import columns_of_tables, encoded, rows_of
from checks.kit.small_traffic import small_capture
from checks.kit.tables.names import name_of_reply, names_in
from checks.kit.tables.reading import Row, tables_of
from checks.kit.tables.stream import stream_of
from checks.kit.traffic import frames
from checks.viewer.pairs import SCENES, WAYS, Kind, played
from viewer.database.programs import build_programs

CHANGED, MADE, SMALL = 2000, 200, 800
# Of those that are made `.ci/run` takes each so many-th.
SHARE = 4
# Codes of transactions: the last one of a method, one of IBase, and those of no method of an interface.
IBASE = 0x0f504e47
CODES = (0xffffff, IBASE, 0, 2**24, 2**32 - 1,
         *(int.from_bytes(word, "big") for word in (b"_NTF", b"_DMP", b"_CMD", b"_SPR", b"_EXT", b"_PID", b"_PNG")))
# A made capture of kit/traffic.py has so many frames, and one of a crowd so many calls.
FRAMES, CROWD = 400, 100

STORED = {f"stored/{'/'.join(path.relative_to(ROOT).parts[1:])}": path for folder in ("samples", "crates")
          for path in sorted((ROOT / folder).rglob("*.cap"))}


def names(all_of_them: bool) -> list[str]:
    step = 1 if all_of_them else SHARE
    return [*STORED, *(f"changed/{number}" for number in range(0, CHANGED, step)),
            *(f"made/{number}" for number in range(0, MADE, step)),
            *(f"small/{number}" for number in range(0, SMALL, step)), *(f"pair/{name}" for name in PAIR_CASES), *OTHERS]


# ---- captures


@cache
def stored() -> tuple[list[bytes], list[bytes]]:
    """The stored captures: those of a real driver, and small ones."""
    of_driver = [name for name in STORED if name.startswith("stored/driver/")]
    return [STORED[name].read_bytes() for name in of_driver], [
        path.read_bytes() for name, path in STORED.items() if name not in of_driver]


def lost(chance: random.Random, capture: bytes) -> bytes:
    """Without some of its frames, whose sequences are left out."""
    kept, left_out = [capture[:16]], 0
    for one in frames_of(capture):
        left_out = max(left_out - 1, chance.choice((0,) * 20 + (1, 1, 2, 10)))
        if not left_out:
            kept.append(capture[one.place:one.end])
    return b"".join(kept)


def changed(number: int) -> list[bytes]:
    """The files of a changed capture."""
    chance = random.Random(f"changed {number}")
    capture = changed_capture(chance, *(chance.choice(chance.choice(stored())) for _ in range(2)))
    if chance.random() < 0.5:
        capture = lost(chance, capture)
    if chance.random() < 0.8 or len(capture) < 16:
        return [capture]
    ends = [one.end for one in frames_of(capture)] or [16]
    cuts = sorted(chance.choice(ends) if chance.random() < 0.9 else chance.randint(16, len(capture))
                  for _ in range(chance.randint(1, 3)))
    return [capture[:cuts[0]], *(HEADER_2 + capture[begin:end] for begin, end in zip(cuts, [*cuts[1:], len(capture)]))]


def session(chance: random.Random) -> bytes:
    """A session of the made-up driver, other ones than `pairs` plays."""
    return played(Kind(chance.choice(list(SCENES)), chance.choice(list(WAYS))), chance.randrange(1000, 2000)).capture


def traffic(chance: random.Random) -> bytes:
    begin = chance.randrange(20) * FRAMES
    return HEADER_2 + b"".join(itertools.islice(frames(chance.randint(1, 3)), begin, begin + FRAMES))


def talk(client: int, handle: int, entered: float, senders: tuple[int, ...], chance: random.Random
         ) -> Iterator[tuple[int, int, bytes]]:
    """A transaction that is like the others of a crowd: for each frame its direction, its thread, and its record."""
    oneway, server = chance.random() < 0.2, 1000 + client
    fields = {"code": 1, "flags": int(oneway)}
    yield 1, client, transaction(BC_TRANSACTION, target=handle, **fields)
    yield 2, client, record(chance.choice((BR_TRANSACTION_COMPLETE,) * 20 + (BR_FAILED_REPLY,)))
    if chance.random() < entered:
        yield 1, server, ENTER
    yield 2, server, transaction(BR_TRANSACTION, target=16 * handle, buffer=4096 * client, **fields,
                                 sender=chance.choice((0, 0, *senders)))
    if not oneway:
        yield 1, server, transaction(BC_REPLY)
        yield 2, client, transaction(BR_REPLY, buffer=4096)


def crowd(chance: random.Random) -> bytes:
    """Transactions of which more are alike than are looked at for one delivery, of three processes to one."""
    capture, sequence, handles = [HEADER_2], 0, chance.randint(1, 2)
    # In some of them a frame is missing now and then, or some threads began to take calls before the capture.
    steps, entered = chance.choice(((1,), (1,) * 200 + (3,))), chance.choice((1, 1, 0.9))
    # From 4,194,304 on, no sender_pid is compared with the number of a process.
    clients = chance.choice(((1, 2, 3), (4194303, 4194304, 4194305)))
    talks = [talk(number, chance.randint(1, handles), entered, clients, chance) for number in range(CROWD)]
    while talks:
        # Most are sent before the first one comes.
        at = chance.randrange(len(talks)) if sequence > 2 * CROWD else sequence % len(talks)
        it = next(talks[at], None)
        if it is None:
            del talks[at]
            continue
        direction, thread, made_record = it
        sequence += chance.choice(steps)
        process = clients[thread % 3] if thread < 1000 else 100
        capture.append(frame(direction, sequence, process, thread, [made_record]))
    return b"".join(capture)


def made(number: int) -> list[bytes]:
    """The file of a capture of made-up traffic."""
    chance = random.Random(f"made {number}")
    return [chance.choices((session, traffic, crowd), (7, 2, 1))[0](chance)]


# ---- captures of what hardly ever comes


def freezes() -> bytes:
    """Freeze notifications, and records with the same numbers and other sizes, or with other numbers."""
    return HEADER + write(
        1, 100, 101, watch(BC_REQUEST_FREEZE_NOTIFICATION, 7, 0x70),
        watch(BC_REQUEST_FREEZE_NOTIFICATION, MAX_32, MAX_64), *each(BC_ACQUIRE, 7),
    ) + read(
        2, 100, 101, record(BR_NOOP), frozen(0x70, 1), record(BR_FROZEN_BINDER, u64(MAX_64), u32(MAX_32), u32(9)),
    ) + write(
        3, 100, 102, *each_long(BC_FREEZE_NOTIFICATION_DONE, 0x70), watch(BC_CLEAR_FREEZE_NOTIFICATION, 7, 0x70),
    ) + read(
        4, 100, 102, *each_long(BR_CLEAR_FREEZE_NOTIFICATION_DONE, 0x70),
    ) + write(
        5, 100, 101, *map(record, (0x40046313, 0x40086313, 0x40106315, 0x400C6316)),
    ) + read(6, 100, 101, *map(record, (0x80087215, 0x800C7216)))


def carrying(payloads: Iterable[tuple[int, int, bytes]]) -> bytes:
    """A capture with a frame for each of these: the code word of a transaction or a reply, its code, and its data."""
    return HEADER + b"".join(
        frame(1 if word in COMMANDS else 2, number, 100, 101, [transaction(word, 1, code, sizes=(len(data), 0))],
              [entry(0, data, b"")]) for number, (word, code, data) in enumerate(payloads, 1))


def naming() -> bytes:
    """Payloads with names of interfaces, in all kinds of records and with all sorts of codes."""
    sent = BC_TRANSACTION, BC_TRANSACTION_SG, BR_TRANSACTION, BR_TRANSACTION_SEC_CTX
    texts = [tokens.string16(text) for text in (tokens.MANAGER, "sword.fish", "swordfish", "")]
    replies = [*texts, texts[0] + bytes(4), bytes(4) + texts[0], texts[0][:-4], tokens.marked(tokens.MANAGER)]
    return carrying([
        *((BC_TRANSACTION, 1, data) for data in tokens.payloads()),
        *((word, code, data) for data in (*tokens.MADE, *tokens.RECORDED) for code in (1, *CODES) for word in sent),
        *((word, 0, data) for word in (BC_REPLY, BC_REPLY_SG, BR_REPLY) for data in replies)])


def asking() -> bytes:
    """Payloads to the manager of names, with names of services."""
    return carrying((word, code, data) for data in tokens.services() for word, code in (
        (BC_TRANSACTION, 2), (BR_TRANSACTION_SEC_CTX, 5), (BC_TRANSACTION, CODES[-1]), (BC_REPLY, 1)))


OTHERS = {"other/freezes": freezes, "other/interfaces": naming, "other/services": asking}


def files_of(name: str) -> list[bytes]:
    kind, _, number = name.partition("/")
    if kind == "other":
        return [OTHERS[name]()]
    if kind == "stored":
        return [STORED[name].read_bytes()]
    if kind == "small":
        return [small_capture(random.Random(name))]
    if kind == "pair":
        return [PAIR_CASES[number]()]
    return changed(int(number)) if kind == "changed" else made(int(number))


# ---- comparing


def written(room: pathlib.Path, parts: list[bytes]) -> tuple[int, pathlib.Path]:
    """The status of the program on a capture in these files, and the folder with its tables."""
    files, folder = [], room / "tables"
    folder.mkdir(parents=True)
    for number, part in enumerate(parts):
        files.append(room / f"{number}.cap")
        files[-1].write_bytes(part)
    return subprocess.run([TABLES, "--tables", folder, *files], stdout=subprocess.DEVNULL, stderr=subprocess.DEVNULL,
                          timeout=120).returncode, folder


def told(*words: object) -> bytes:
    """What the program writes to standard output."""
    return subprocess.run([TABLES, *map(str, words)], stdout=subprocess.PIPE, stderr=subprocess.DEVNULL,
                          timeout=120).stdout


def streamed(chance: random.Random, what: str | None, parts: list[bytes], files: list[pathlib.Path]) -> str | None:
    """Compares the stream of what is at some places, or of all. Returns what was asked for if it differs."""
    places = [chance.randrange(sum(map(len, parts)) + 20) for _ in range(chance.randint(1, 3))] if what else []
    words = ["--lines", *["--objects"] * chance.randrange(2), *(word for place in places for word in (what, place))]
    return None if told(*words, "--", *files) == stream_of(parts, "--objects" in words, what, places) else f"{words}"


def differing(path: pathlib.Path, due: list[Row]) -> Iterator[str]:
    """The rows of a table that differ: of each the place or the number, and the columns."""
    columns = list(columns_of_tables()[path.stem])
    wanted = [{name: value if isinstance(value, str) else value % 2**64
               for name, value in zip(columns, row) if value is not None} for row in due]
    for number, (one, other) in enumerate(itertools.zip_longest(rows_of(path), wanted)):
        if one is None or other is None:
            yield f"row {number}: {'only the reading' if one is None else 'only the program'} has {one or other}"
        elif one != other:
            yield f"row {number} ({columns[0]} {one[columns[0]]}): " + ", ".join(
                f"{name} is {one.get(name)}, and {other.get(name)} by the reading"
                for name in columns if one.get(name) != other.get(name))


def compared(room: pathlib.Path, name: str, most: int) -> list[str]:
    """What differs of a case: of each table at most so many rows."""
    parts = files_of(name)
    status, folder = written(room / name, parts)
    tables = tables_of(parts)
    wrong = []
    if status != (0 if tables["capture"][0][8] is None else 2):
        wrong.append(f"{name}: ends with status {status}")
    came = {path.stem for path in folder.glob("*.rows")}
    if came != set(tables):
        wrong.append(f"{name}: has the tables {sorted(came)}")
    for table in sorted(came & set(tables)):
        path = folder / f"{table}.rows"
        if path.read_bytes() != encoded(tables[table]):
            wrong += [f"{name}, {table}: {what}" for what in itertools.islice(differing(path, tables[table]), most)]
    chance, files = random.Random(f"asked of {name}"), sorted((room / name).glob("*.cap"))
    one = chance.choice(sorted(tables))
    for table in tables if name in OTHERS else [one] if name in STORED else []:
        if told("--table", table, *files) != encoded(tables[table]):
            wrong.append(f"{name}, {table}: written alone, it is another one")
    what = chance.choice((None, "--at", "--frame", "--call"))
    if words := streamed(chance, None if name in OTHERS else what, parts, files):
        wrong.append(f"{name}: the stream of {words} differs")
    shutil.rmtree(room / name)
    return wrong


def check_names(fail: Fail) -> None:
    """The second reading finds in payloads what these were made to name, by the codes of methods and by no other."""
    for data, due in tokens.payloads().items():
        of_hidl = due if due and "::" in due else None
        for code, wanted in ((1, due), (0xffffff, due), (IBASE, of_hidl), *((code, None) for code in CODES[2:])):
            compare(f"code {code:#x} {data.hex()}", names_in(code, data)[0], wanted, fail)
    for data, due in tokens.services().items():
        compare(f"the service of {data.hex()}", names_in(2, data)[1], due, fail)
    replies = {tokens.string16(text): due for text, due in (
        (tokens.MANAGER, tokens.MANAGER), ("sword.fish", None), ("swordfish", None), ("", None))}
    replies |= {made: None for made in (tokens.string16(tokens.MANAGER) + bytes(4), tokens.marked(tokens.MANAGER))}
    for data, due in replies.items():
        compare(f"a reply of {data.hex()}", name_of_reply(data), due, fail)


def judge(given: argparse.Namespace, room: pathlib.Path, fail: Fail) -> None:
    build_programs(ROOT)
    check_names(fail)
    cases = given.cases if given.named else names(given.all)
    with ProcessPoolExecutor(os.cpu_count()) as pool:
        for wrong in pool.map(compared, itertools.repeat(room), cases, itertools.repeat(1000 if given.show else 1),
                              chunksize=8):
            for what in wrong:
                fail(what)


if __name__ == "__main__":
    check(judge, lambda: names(True), all=FLAG, show=FLAG)
