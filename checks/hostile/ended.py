"""Ends the viewer while it writes: by SIGKILL, because a file can't be longer, or because a disk is full, each by
chance."""

import pathlib
import random
import shutil
from typing import Iterator

from checks.hostile.oracle import faults_of_streams, files_in, why_half
from checks.hostile.plays import Came, Play, Player
from checks.kit.programs import DRIVER, ROOT

FILES = {"-o": "page.html", "--database": "made.db", "--trace": "time.json.gz"}
SESSION = str(DRIVER / "hello-answers/capture-1.cap"), "--side", str(DRIVER / "hello-answers/capture.side")
WRITES = Play("./view", (*SESSION, *(word for option in FILES.items() for word in option)))

# Runs a command whose folder `full` is a disk of so many KiB, and keeps what came there: only it sees the disk.
ON_DISK = ('size=$1; shift; mkdir -p full; mount -t tmpfs -o size="${size}k" none full || exit 99; "$@"; status=$?;'
           ' cp -a full/. kept/; exit "$status"')


def halves(room: pathlib.Path) -> Iterator[str]:
    """The files under their final names that are not whole. Those of scratch folders are nobody's."""
    for name in FILES.values():
        if (room / name).exists() and (why := why_half(room / name)):
            yield f"{name} is not whole: {why}"


def emptied(room: pathlib.Path) -> None:
    for name in FILES.values():
        (room / name).unlink(missing_ok=True)


def taken_for_whole(room: pathlib.Path) -> Iterator[str]:
    """Files that are made wrong on purpose, and that nobody sees to be wrong."""
    for name in FILES.values():
        data = (room / name).read_bytes()
        wrong = [data[:len(data) // 2], data[:-9], b""]
        if name.endswith(".html"):
            wrong += [data.replace(b"</p>", more + b"</p>", 1) for more in (b"<img src=x>", b"\x1b[31m", b"<script>")]
        for number, other in enumerate(wrong):
            (room / name).write_bytes(other)
            if why_half(room / name) is None:
                yield f"{name}, made wrong in way {number}, is taken for whole"


def killed(player: Player, chance: random.Random, room: pathlib.Path, count: int) -> Iterator[str]:
    """Kills it so many times. The run after the last one leaves nothing of them but whole files."""
    longest = player.play(WRITES, room).seconds
    yield from halves(room)
    yield from taken_for_whole(room)
    for _ in range(count):
        emptied(room)
        after = chance.uniform(0, longest)
        player.play(WRITES, room, kill_after=after)
        yield from (f"killed after {after:.3f} s: {what}" for what in halves(room))
    emptied(room)
    came = player.play(WRITES, room)
    left = sorted(str(path.relative_to(room)) for path in files_in(room) if path.name not in FILES.values())
    if came.status or left or len(list(halves(room))):
        yield f"after {count} that were killed: status {came.status}, left {left}, {came.err.decode()}"


def said_wrongly(came: Came) -> Iterator[str]:
    """What is wrong with what it says when it can't write a file."""
    yield from faults_of_streams(came)
    if came.status not in (0, 1, 4) or came.status and (not came.err or b"standard output" in came.err):
        yield f"status {came.status}, {came.err.decode()}"


def in_short_files(player: Player, chance: random.Random, room: pathlib.Path, count: int) -> Iterator[str]:
    """Runs it so many times where no file can be longer than some bytes."""
    longest = max(path.stat().st_size for path in files_in(room))
    for _ in range(count):
        emptied(room)
        size = chance.randrange(longest)
        came = player.play(WRITES, room, file_size=size)
        yield from (f"with no file above {size} bytes: {what}" for what in (*said_wrongly(came), *halves(room)))


def on_full_disks(player: Player, chance: random.Random, room: pathlib.Path, count: int) -> Iterator[str]:
    """Runs it so many times with each of its files on a small disk, if the system gives this user one."""
    if player.play(Play("unshare", ("-rm", "true")), room).status:
        return
    kept = room / "kept"
    for option, name in [*FILES.items()] * count:
        shutil.rmtree(kept, ignore_errors=True)
        kept.mkdir()
        size = chance.randrange(4, 60)
        words = str(size), str(ROOT / "view"), *SESSION, option, f"full/{name}"
        came = player.play(Play("unshare", ("-rm", "sh", "-c", ON_DISK, "sh", *words)), room)
        yield from (f"{option} on a disk of {size} KiB: {what}" for what in (*said_wrongly(came), *halves(kept)))


def faults_of_ends(player: Player, chance: random.Random, room: pathlib.Path, count: int) -> Iterator[str]:
    (room / "tmp").mkdir(parents=True)
    yield from killed(player, chance, room, count)
    yield from in_short_files(player, chance, room, max(count // 2, 1))
    emptied(room)
    yield from on_full_disks(player, chance, room, max(count // 6, 1))
