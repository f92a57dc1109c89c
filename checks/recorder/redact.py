"""Checks what `./record --redact` takes out of payloads.

    checks/run redact [-- PROGRAM]      PROGRAM is the auditor; without it, it takes the built one

It builds the part of the recorder that writes frames, and gives it the captures of samples/ and made ones as if they
were just being recorded. What must hold:

- With a key that is known, the bytes are those that docs/RECORD.md describes, by the BLAKE2s of Python.
- The report on a redacted capture, and all rows of `./listing --tables`, are those of the capture, byte for byte, but
  for names of services, of which it has none. So sizes, objects and offsets stay, and each send still fits its
  delivery. Made captures have random offsets and sorts, with all causes of bad objects.
- Of each payload only the objects and the interface token stay: no eight bytes of a secret are found. Tokens of all
  versions stay, and a text that is no name of an interface does not. Another recording gives other bytes.
- Without --redact only payloads with TF_CLEAR_BUF are changed.
"""

import argparse
import hashlib
import os
import pathlib
import random
import re
import shutil
import struct
import subprocess
from collections import Counter
from typing import Iterator, NamedTuple

from checks.kit import captures
from checks.kit.captures import BC_REPLY, BC_TRANSACTION, BR_REPLY, BR_TRANSACTION, HEADER_2
from checks.kit.checking import Fail, check
from checks.kit.frames import entries_of, frames_of
from checks.kit.programs import CHECKS, ROOT, TABLES
from checks.kit.rows import rows_of
from checks.kit.tokens import GATHER, MANAGER, NO_SOURCE, PARTITIONS, marked, numbers, partition, string16

TF_ONE_WAY, TF_CLEAR_BUF = 0x01, 0x20
SORTS = {int.from_bytes(one[:4], "little"): len(one) for one in captures.SORTS}  # the bytes of each

# The column of the table record that has what is redacted.
REDACTED = {"service": None}


# ---- captures


class Payload(NamedTuple):
    data: bytes
    offsets: bytes = b""


def frame(number: int, direction: int, word: int, payload: Payload, flags: int = 0) -> bytes:
    """A frame with one transaction or reply, and its entry. Two processes take turns."""
    sizes = len(payload.data), len(payload.offsets)
    record = captures.transaction(word, target=1, code=7, flags=flags, sizes=sizes, buffer=4096)
    return captures.frame(direction, number, direction, direction, [record], [captures.entry(0, *payload)])


def capture(frames: list[bytes]) -> bytes:
    return HEADER_2 + b"".join(frames)


def crossing(payloads: list[tuple[Payload, int]]) -> bytes:
    """Each payload as a oneway send and its delivery."""
    made: list[bytes] = []
    for payload, flags in payloads:
        made.append(frame(len(made) + 1, 1, BC_TRANSACTION, payload, flags | TF_ONE_WAY))
        made.append(frame(len(made) + 1, 2, BR_TRANSACTION, payload, flags | TF_ONE_WAY))
    return capture(made)


def payloads_in(data: bytes) -> Iterator[Payload]:
    for one in frames_of(data):
        for _, *payload in entries_of(one.attached):
            yield Payload(*payload)


# ---- what is run


class Programs(NamedTuple):
    redact: pathlib.Path
    auditor: pathlib.Path
    lister: pathlib.Path


def build(room: pathlib.Path) -> pathlib.Path:
    subprocess.run([CHECKS / "recorder/build.sh", "--sanitize", "redact", room], check=True)
    return room / "redact"


def redacted(programs: Programs, room: pathlib.Path, data: bytes, which: str = "all", key: str | None = None) -> bytes:
    """The capture as the recorder would have written it; with this key, or else with a random one."""
    (room / "in.cap").write_bytes(data)
    subprocess.run([programs.redact, which, room / "in.cap", room / "out"], check=True,
                   env={**os.environ, **({"KEY": key} if key else {})})
    made = (room / "out-1.cap").read_bytes()
    for path in room.glob("out*"):
        path.unlink()
    return made


def rows_in(path: pathlib.Path) -> list[dict[str, object]]:
    """The rows of a table, those of the table record without what is redacted."""
    return [{**row, **REDACTED} if path.stem == "record" else row for row in rows_of(path)]


def answers(programs: Programs, room: pathlib.Path, data: bytes) -> tuple[str, dict[str, list]]:
    """The report on a capture, and the rows of its tables."""
    path, rows = room / "asked.cap", room / "rows"
    path.write_bytes(data)
    report = subprocess.run([programs.auditor, "report", path], capture_output=True, encoding="utf-8").stdout
    rows.mkdir()
    subprocess.run([programs.lister, "--tables", rows, path], capture_output=True)
    tables = {table.stem: rows_in(table) for table in rows.iterdir()}
    shutil.rmtree(rows)
    return report, tables


def check_same(programs: Programs, room: pathlib.Path, name: str, data: bytes, fail: Fail) -> bytes:
    """A capture and its redacted form have the same answers. Returns that form. The key is the same in each run: with a
    random one, a payload of a byte is by chance redacted to itself, or as another one is."""
    made = redacted(programs, room, data, key="k" * 32)
    report, tables = answers(programs, room, data)
    other_report, other_tables = answers(programs, room, made)
    if not report.startswith("BINDER AUDIT "):
        fail(f"{name}: no report: {report[:80]!r}")
    if report != other_report:
        fail(f"{name}: redacted, it has another report")
    services, other_services = (some.pop("service", None) for some in (tables, other_tables))
    if services is None or other_services != []:
        fail(f"{name}: redacted, it has names of services")
    if other := [table for table, rows in tables.items() if rows != other_tables.get(table)]:
        fail(f"{name}: redacted, these rows of ./listing --tables differ: {other}")
    if [(len(one.data), one.offsets) for one in payloads_in(data)] != \
            [(len(one.data), one.offsets) for one in payloads_in(made)]:
        fail(f"{name}: redacted, sizes or offsets differ")
    return made


# ---- the checks


def hashed(key: str, data: bytes) -> bytes:
    """What replaces a payload without a token and without objects: hashes, with a key of 32 bytes, of the hash of all
    that is replaced. `d` and `s` say which hash is meant; where the data begin and how long they are comes before."""
    def digest(*parts: bytes) -> bytes:
        return hashlib.blake2s(b"".join(parts), key=key.encode()).digest()
    whole = digest(b"d", struct.pack("<I", len(data)), struct.pack("<QQ", 0, len(data)) if data else b"", data)
    return b"".join(digest(b"s", whole, struct.pack("<Q", at)) for at in range(len(data) // 32 + 1))[:len(data)]


def check_key(programs: Programs, room: pathlib.Path, fail: Fail) -> None:
    """Recordings of one key redact alike, for payloads of all lengths around those of the hash's blocks."""
    for key in ("k" * 32, bytes(range(33, 65)).decode()):
        for length in (*range(1, 8), 31, 32, 33, 63, 64, 65, 127, 128, 129, 255, 5000):
            data = bytes(at * 7 & 255 for at in range(length))
            one, two = payloads_in(redacted(programs, room, crossing([(Payload(data), 0)]), key=key))
            if not one.data == two.data == hashed(key, data):
                fail(f"with the key {key!r}, {length} bytes are redacted otherwise")


def is_token(data: bytes) -> bool:
    """Whether the data are a token of an interface and nothing else: there is nothing to replace."""
    for before in (4, 8, 12):
        text = data[before + 4:].decode("utf-16-le", "replace").rstrip("\0")
        if re.fullmatch(r"(\w+\.)+I\w+", text) and data[before:] == string16(text):
            return True
    return re.fullmatch(rb"[\w.]+@\d+\.\d+::I\w+\0", data) is not None


def check_samples(programs: Programs, room: pathlib.Path, fail: Fail) -> None:
    for path in sorted([*ROOT.glob("samples/driver/*/capture-1.cap"), ROOT / "samples/attachment.cap"]):
        if not path.exists():
            continue
        data, name = path.read_bytes(), str(path.relative_to(ROOT))
        made = check_same(programs, room, name, data, fail)
        both = [(one, two) for one, two in zip(payloads_in(data), payloads_in(made))
                if len(one.data) > 16 and not one.offsets and not is_token(one.data)]
        if same := sum(one == two for one, two in both):
            fail(f"{name}: {same} payloads without objects are not redacted")


def random_payload(chance: random.Random) -> Payload:
    """Random data with a list of offsets, some of which lead to sorts, and some of which are bad."""
    data = bytearray(chance.randbytes(chance.randrange(0, 200)))
    offsets: list[int] = []
    at = chance.randrange(0, 3) * 4
    for _ in range(chance.randrange(0, 5)):
        sort = chance.choice([*SORTS, *SORTS, 0x12345678])
        if at + 4 <= len(data):
            struct.pack_into("<I", data, at, sort)
        offsets.append(at)
        at += chance.choice([SORTS.get(sort, 4), SORTS.get(sort, 4) + 4, SORTS.get(sort, 4) + 20, 2, 0, -8, 2**40])
        at = max(at, 0)
    if chance.random() < 0.05:
        offsets.append(2**64 - 4)
    listed = b"".join(struct.pack("<Q", offset) for offset in offsets)
    return Payload(bytes(data), listed[:-1] if listed and chance.random() < 0.05 else listed)


def check_random(programs: Programs, room: pathlib.Path, fail: Fail) -> None:
    chance = random.Random(1)
    payloads = [(random_payload(chance), chance.choice([0, TF_CLEAR_BUF])) for _ in range(2000)]
    payloads += payloads[:100]
    data = crossing(payloads)
    check_same(programs, room, "made at random", data, fail)
    report, _ = answers(programs, room, data)
    causes = Counter(line.split()[-1] for line in report.partition("\nobjects ")[2].splitlines()[1:]
                     if line.startswith("  "))
    if missing := {"ListLength", "Misaligned", "Overlap", "Short", "UnknownSort"} - set(causes):
        fail(f"made at random: no bad object of the causes {missing}")


SECRET = b"the launch code is 0000-0001, and the second one 4711-0815"
TOKENS = {
    "of Android 9": numbers(GATHER) + string16(MANAGER),
    "of Android 10": numbers(GATHER, NO_SOURCE) + string16(MANAGER),
    **{f"of Android 11, {word}": marked(MANAGER, word) for word in PARTITIONS},
    "of HIDL": b"android.hardware.nfc@1.2::INfc\0",
    "of an inner class": numbers(0) + string16("com.example.a_b2.IThing$Sub")}
NO_TOKENS = {
    "a text": numbers(7) + string16("swordfish"),
    "a text with a point": numbers(7) + string16("sword.fish"),
    "a text of another language": numbers(7) + string16("пароль.Iароль"),
    "a name without its end": (numbers(7) + string16(MANAGER))[:-4] + b"abcd",
    "ASCII": b"swordfish\0",
    "ASCII with a point": b"sword.fish.IFish\0",
    "letters of no partition": numbers(1, 2, partition("SWRD")) + string16(MANAGER)}


def holds(data: bytes, secret: bytes) -> bool:
    """Whether any eight bytes of the secret are in the data."""
    return any(secret[at:at + 8] in data for at in range(len(secret) - 7))


def check_tokens(programs: Programs, room: pathlib.Path, fail: Fail) -> None:
    for name, token in TOKENS.items():
        one, two = payloads_in(redacted(programs, room, crossing([(Payload(token + SECRET), 0)])))
        if one != two or one.data[:len(token)] != token or holds(one.data, SECRET):
            fail(f"a token {name}: {one.data!r}")
        reply, = payloads_in(redacted(programs, room, capture([frame(1, 1, BC_REPLY, Payload(token + SECRET))])))
        if reply.data[:8] == token[:8]:
            fail(f"a token {name} in a reply is not redacted")
    for name, text in NO_TOKENS.items():
        one, two = payloads_in(redacted(programs, room, crossing([(Payload(text + SECRET), 0)])))
        if one != two or holds(one.data, text + SECRET):
            fail(f"{name}: {one.data!r}")


def objects_between(secret: bytes) -> list[Payload]:
    """The payload as sender and receiver have it: the object in it is translated."""
    offsets = struct.pack("<Q", len(secret))
    return [Payload(secret + struct.pack("<IIQQ", sort, 0x7f, value, 0) + secret, offsets)
            for sort, value in ((0x73622a85, 0x1234567890), (0x73682a85, 5))]


def check_secrets(programs: Programs, room: pathlib.Path, fail: Fail) -> None:
    secret = SECRET[:56]
    sent, got = objects_between(secret)
    data = capture([frame(1, 1, BC_TRANSACTION, sent), frame(2, 2, BR_TRANSACTION, got), frame(3, 1, BC_REPLY, got),
                    frame(4, 2, BR_REPLY, sent), frame(5, 1, BC_TRANSACTION, Payload(SECRET), TF_CLEAR_BUF),
                    frame(6, 1, BC_TRANSACTION, Payload(SECRET[1:])),
                    frame(7, 1, BC_TRANSACTION, Payload(SECRET[:-1]))])
    made = redacted(programs, room, data)
    first, second, *_, one, two = payloads_in(made)
    if holds(made, SECRET):
        fail("a secret is in the redacted capture")
    if first.data[56:80] != sent.data[56:80] or second.data[56:80] != got.data[56:80]:
        fail("an object is not kept")
    if (first.data[:56], first.data[80:]) != (second.data[:56], second.data[80:]):
        fail("a payload is not the same on both sides of an object that is translated")
    if first.data[:56] == first.data[80:]:
        fail("equal bytes at two places of a payload look equal")
    if one == two:
        fail("payloads that differ look equal")
    if made == redacted(programs, room, data):
        fail("two recordings redact alike")
    *plain, flagged, one, two = payloads_in(redacted(programs, room, data, "flagged"))
    if [*plain, one.data, two.data] != [sent, got, got, sent, SECRET[1:], SECRET[:-1]] or holds(flagged.data, SECRET):
        fail("without --redact not just the payloads with TF_CLEAR_BUF are redacted")


def judge(given: argparse.Namespace, room: pathlib.Path, fail: Fail) -> None:
    programs = Programs(build(room), given.programs[0], TABLES)
    for part in (check_key, check_tokens, check_secrets, check_random, check_samples):
        part(programs, room, fail)


if __name__ == "__main__":
    check(judge)
