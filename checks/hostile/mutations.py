"""Changes of good inputs by chance: of bytes, of frames, of the words of lines, and of sources."""

import random
import re
import struct
from typing import Callable, TypeVar

from checks.kit.captures import HEADER_2, frame, u32
from checks.kit.frames import Frame, entries_of, frames_of, records_of

Thing = TypeVar("Thing")

# Words that mean something to a browser, a terminal, a shell, SQL, a file system, a template or a parser.
WORDS = ("<script>alert(1)</script>", "\"><img src=x onerror=alert(1)>", "' onmouseover='x", "&lt;b&gt;",
         "\x1b]0;title\x07\x1b[31mred", "\\x1b[31mred\\x07", "\x9b31m", "\x7f", "\u202egnp.exe", "\u2066x", "\u200f",
         "\r\nview: all is well", "\0", "\u2028", "\ud800", "\U000e0041", "\uffff", "a" * 3000, "%s%n{0}{{7*7}}",
         "$(>pwned)`>pwned`;>pwned", "x'); DROP TABLE capture; --", "../../pwned", "name=x", "=", "", " ", "\t", "-")
NUMBERS = ("0", "1", "-1", str(2**31), str(2**32 - 1), str(2**32), str(2**63 - 1), str(2**63), str(2**64 - 1),
           str(2**64), "9" * 40, "9" * 5000, "0" * 30 + "1", "0x10", "１２", "٣", "1e9", "1_000", "nan", "")

# Numbers at which fields end, and what is computed of them.
EDGES = (0, 1, 2**31 - 1, 2**31, 2**32 - 1, 2**63, 2**64 - 1)

# How often an input is changed.
TIMES = (1, 1, 2, 4, 16)


def encoded(word: str) -> bytes:
    return word.encode("utf-8", "surrogatepass")


def hostile(chance: random.Random) -> bytes:
    return encoded(chance.choice(chance.choice((WORDS, NUMBERS))))


def reorder(chance: random.Random, things: list[Thing]) -> None:
    """Repeats, removes or exchanges a few of some things."""
    if not things:
        return
    at, other = chance.randrange(len(things)), chance.randrange(len(things))
    what = chance.randrange(4)
    if what == 0:
        things.insert(other, things[at])
    elif what == 1:
        del things[at:at + chance.choice((1, 1, 5))]
    elif what == 2:
        things[at], things[other] = things[other], things[at]
    else:
        del things[at:]


# ---- bytes


def flipped(chance: random.Random, data: bytes, at: int) -> bytes:
    return data[:at] + bytes([data[at] ^ 1 << chance.randrange(8)]) + data[at + 1:]


def cut(_: random.Random, data: bytes, at: int) -> bytes:
    return data[:at]


def without(chance: random.Random, data: bytes, at: int) -> bytes:
    return data[:at] + data[at + chance.randrange(1, 64):]


def repeated(chance: random.Random, data: bytes, at: int) -> bytes:
    begin = chance.randrange(len(data))
    return data[:at] + data[begin:begin + chance.randrange(1, 200)] + data[at:]


def numbered(chance: random.Random, data: bytes, at: int) -> bytes:
    """With a number that is an edge, of some length, in place of what is there."""
    length = chance.choice((1, 4, 8))
    return data[:at] + (chance.choice(EDGES) % 256**length).to_bytes(length, "little") + data[at + length:]


def changed_bytes(chance: random.Random, data: bytes) -> bytes:
    for _ in range(chance.choice(TIMES)):
        data = data or b"\0"
        data = chance.choice((flipped, cut, without, repeated, numbered, numbered))(
            chance, data, chance.randrange(len(data)))
    return data


# ---- captures


def changed_header(chance: random.Random, one: Frame) -> Frame:
    """With another process, thread or device, and seldom another direction."""
    return one._replace(**{chance.choice(("process", "thread", "device") * 3 + ("direction",)):
                           chance.choice(EDGES) % 2**32})


def changed_names(chance: random.Random, one: Frame) -> Frame:
    """With hostile words for names of UTF-16 in its data, of the same length."""
    def other(found: re.Match[bytes]) -> bytes:
        word = chance.choice(WORDS).encode("utf-16-le", "surrogatepass")
        return word[:len(found[0])].ljust(len(found[0]), b"\0")
    return one._replace(attached=re.sub(rb"(?:[a-zA-Z.]\0){5,}", other, one.attached))


def changed_payload(chance: random.Random, payload: bytes) -> bytes:
    """With other bytes, but no more or fewer."""
    if not payload:
        return payload
    change = chance.choice((flipped, numbered))
    return change(chance, payload, chance.randrange(len(payload)))[:len(payload)].ljust(len(payload), b"\0")


def changed_record(chance: random.Random, one: Frame) -> Frame:
    """With another payload of one of its records, if it has whole ones."""
    try:
        records = list(records_of(one.commands))
    except struct.error:
        return one
    at = chance.randrange(len(records) or 1)
    return one._replace(commands=b"".join(u32(word) + (changed_payload(chance, payload) if number == at else payload)
                                          for number, (word, payload) in enumerate(records)))


FRAME_CHANGES: tuple[Callable[[random.Random, Frame], Frame], ...] = (
    changed_header, changed_names, changed_record, changed_record)


def joined(frames: list[Frame]) -> bytes:
    """A capture of version 2 of frames that are numbered anew, so that most such captures are read to the end."""
    return HEADER_2 + b"".join(frame(one.direction % 256, number, one.process, one.thread, [one.commands],
                                     [one.attached], one.device) for number, one in enumerate(frames, 1))


def changed_frames(chance: random.Random, capture: bytes) -> bytes:
    frames = frames_of(capture)
    for _ in range(chance.choice(TIMES)):
        if not frames or chance.random() < 0.4:
            reorder(chance, frames)
            continue
        at = chance.randrange(len(frames))
        frames[at] = chance.choice(FRAME_CHANGES)(chance, frames[at])
    return joined(frames)


def changed_capture(chance: random.Random, capture: bytes, other: bytes) -> bytes:
    """A capture of which bytes or frames are changed, or into which another one is spliced."""
    how = chance.randrange(6)
    if how == 0:
        return changed_bytes(chance, capture)
    if how == 1:
        return capture[:chance.randint(0, len(capture))] + other[chance.randint(0, len(other)):]
    return joined(frames_of(capture) + frames_of(other)) if how == 2 else changed_frames(chance, capture)


# Lengths, sizes and markers that data may say of themselves.
SAID = (0, 1, 2, 3, 4, 8, 16, 24, 1000, 2**30, 2**31 - 1, 2**32 - 4, 2**32 - 2, 2**32 - 1)


def changed_data(chance: random.Random, one: Frame) -> Frame:
    """With other numbers in the data of its transactions, or in their lists of offsets, and no more or fewer bytes."""
    attached = b""
    for record, data, offsets in entries_of(one.attached):
        whole = bytearray(data + offsets)
        for _ in range(chance.choice(TIMES) if len(whole) >= 4 else 0):
            at = chance.randrange(len(whole) // 4) * 4
            whole[at:at + 4] = u32(chance.choice((*SAID, at, len(whole) - at, chance.randrange(2**32))))
        attached += u32(record) + u32(len(data)) + u32(len(offsets)) + whole
    return one._replace(attached=attached)


def changed_attachments(chance: random.Random, capture: bytes) -> bytes:
    """A capture of which the data are changed, and nothing else."""
    return joined([changed_data(chance, one) if chance.random() < 0.3 else one for one in frames_of(capture)])


# ---- lines of words


def changed_word(chance: random.Random, line: bytes) -> bytes:
    """With a hostile word for one of its words, or for what follows `=` in one."""
    words = re.split(rb"([ \t,:])", line)
    at = chance.randrange(0, len(words), 2)
    front, equals, _ = words[at].partition(b"=")
    words[at] = front + equals + hostile(chance) if equals and chance.random() < 0.8 else hostile(chance)
    return b"".join(words)


def changed_name_of(chance: random.Random, line: bytes) -> bytes:
    """With a hostile name, if it has a name."""
    front, name, _ = line.partition(b"name=")
    return front + name + encoded(chance.choice(WORDS)).replace(b"\n", b"") if name else line


LINE_CHANGES: tuple[Callable[[random.Random, bytes], bytes], ...] = (
    changed_word, changed_name_of, changed_name_of, changed_bytes)


def changed_lines(chance: random.Random, text: bytes) -> bytes:
    lines = text.split(b"\n")
    for _ in range(chance.choice((1, 1, 1, 2, 8))):
        if not lines or chance.random() < 0.4:
            reorder(chance, lines)
            continue
        at = chance.randrange(len(lines))
        lines[at] = chance.choice(LINE_CHANGES)(chance, lines[at])
    if chance.random() < 0.3:
        lines = [changed_name_of(chance, line) for line in lines]
    return b"\n".join(lines)


# A word that is repeated again and again gets no longer than this.
LONGEST = 2**17


def changed_source(chance: random.Random, text: bytes) -> bytes:
    """A source of which words and signs are repeated often, exchanged or replaced."""
    if chance.random() < 0.3:
        return changed_bytes(chance, text)
    words = re.findall(rb"\w+|\s+|[^\w\s]", text)
    for _ in range(chance.choice(TIMES)):
        if not words or chance.random() < 0.4:
            reorder(chance, words)
            continue
        at = chance.randrange(len(words))
        often = chance.choice((2, 100, 5000))
        words[at] = hostile(chance) if chance.random() < 0.5 else (words[at] * often)[:LONGEST]
    return b"".join(words)
