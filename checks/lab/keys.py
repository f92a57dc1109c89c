"""What becomes of keys in other captures. In one that begins later the same defects have the same keys, but where a
name came before its first frame; docs/BUILDS.md says which names these are. And in two recordings of one session, for
example on two kernels."""

import pathlib
from typing import Iterable

from checks.kit.checking import Fail, compare
from checks.kit.frames import frames_of
from checks.kit.runs import answer
from checks.viewer.page.common import texts_stored
from checks.viewer.page.losses import met_later
from viewer.defects.seen import Defect, defects_of, kept_database

# Those of the stored captures that the check cuts; together their defects lack each of the names.
CUT = "forgetful", "hello-stuck", "leaks", "sessions"

# How a path begins with a name that is not known, and with one.
LESS = (("reply to no call", "reply to "), ("handle", "handle, "), ("handle", "given by "),
        ("handle 0", "handle 0, "), ("cookie", "handle"))

# How a path ends in which the other end of a handle is not known.
OTHERS = "handle", "handle 0"


def recorded(folder: pathlib.Path, room: pathlib.Path, capture: pathlib.Path, side: pathlib.Path) -> dict[str, Defect]:
    """The defects of a capture."""
    made = room / "keys.db"
    made.unlink(missing_ok=True)
    answer([folder / "view", capture, "--side", side, "--groups", "--database", made], encoding="utf-8")
    return defects_of(kept_database(str(made)))


def defects(folder: pathlib.Path, room: pathlib.Path, capture: bytes, side: str) -> dict[str, Defect]:
    (room / "keys.cap").write_bytes(capture)
    (room / "keys.side").write_text(side, "utf-8", errors="surrogateescape")
    return recorded(folder, room, room / "keys.cap", room / "keys.side")


def lacks_a_name(defect: Defect, of: Defect) -> bool:
    """Whether a defect is this one, but for a name. Who is at the other end of a handle may cause it."""
    if defect.kind != of.kind:
        return False
    for other in OTHERS:
        if defect.path.endswith(f" to {other}"):
            return of.path.startswith(defect.path.removesuffix(other))
    return defect.who == of.who and any(defect.path == less and of.path.startswith(more) for less, more in LESS)


def check_keys_of_cut(folder: pathlib.Path, room: pathlib.Path, names: Iterable[str], fail: Fail) -> tuple[int, int]:
    """Cuts stored captures in front. Returns how many defects have their key there, and how many lack a name."""
    same = split = 0
    for name in names:
        capture, side = texts_stored(name)
        whole, frames = defects(folder, room, capture, side), frames_of(capture)
        for quarter in 1, 2:
            first = frames[len(frames) * quarter // 4]
            cut = defects(folder, room, capture[:16] + capture[first.place:], met_later(side, first.sequence))
            others = [it for it in cut.values() if it.counts and it.key not in whole]
            same += sum(it.counts for it in cut.values()) - len(others)
            split += len(others)
            for it in others:
                if not any(lacks_a_name(it, one) for one in whole.values()):
                    fail(f"{name}, cut after {quarter} of 4: no such defect: {it.kind}, {it.who}, {it.path}")
    compare("keys of captures that are cut in front: most are the same", same > split > 0, True, fail)
    return same, split


# ---- two recordings of one session


def print_keys_of_two(folder: pathlib.Path, room: pathlib.Path, of: tuple[pathlib.Path, pathlib.Path]) -> None:
    """Compares the defects that are `real` or `maybe` in the recordings of the same sessions in two folders, and prints
    those that only one recording has."""
    sessions = sorted(it.parent.name for it in of[0].glob("*/capture-1.cap")
                      if (of[1] / it.parent.name / "capture-1.cap").exists())
    both, only = 0, [0, 0]
    for name in sessions:
        found = [recorded(folder, room, it / name / "capture-1.cap", it / name / "capture.side") for it in of]
        keys = [{key for key, it in defects.items() if it.counts} for defects in found]
        both += len(keys[0] & keys[1])
        for at in 0, 1:
            for key in sorted(keys[at] - keys[1 - at]):
                only[at] += 1
                it, other = found[at][key], found[1 - at].get(key)
                print(f"{name}: only in {of[at]}: {it.verdict}, {it.kind}, {it.who}, {it.path}; in the other one "
                      f"{'it is ' + other.verdict if other else 'it is not'}", flush=True)
    print(f"{len(sessions)} sessions: {both} keys in both, {only[0]} only in {of[0]}, {only[1]} only in {of[1]}")
