"""`record --live` on this system: the recorder runs as the child of this program, which draws what it tells."""

import locale
import os
import signal
import subprocess
import sys
from types import FrameType
from typing import BinaryIO, Callable

from recorder.live.lines import Reader
from recorder.live.methods import Names, names_of
from recorder.live.screen import Actions, is_known_terminal, wait_for_picture, watch
from recorder.live.source import Source
from viewer.methods.known import NotATable
from viewer.terminal import tell

WRONG_WORDS = 64
NOTHING_TO_KEEP = "only what --files records can be kept"


def take_methods(words: list[str]) -> tuple[list[str], list[str]]:
    """The tables of methods, and the other words. What comes after -- is for PROGRAM."""
    at = words.index("--") if "--" in words else len(words)
    tables, others, rest = [], [], iter(words[:at])
    for word in rest:
        if word == "--methods":
            tables.append(next(rest, ""))
        elif word.startswith("--methods="):
            tables.append(word.removeprefix("--methods="))
        else:
            others.append(word)
    return tables, others + words[at:]


def known(tables: list[str]) -> Names:
    """Ends the program if one of them is no table."""
    try:
        return names_of(tables)
    except NotATable as error:
        tell("record", str(error))
    except OSError as error:
        tell("record", f"{error.filename}: {error.strerror}")
    sys.exit(WRONG_WORDS)


class Recorder:
    """The recorder, with a pipe for what it tells of each second."""

    def __init__(self, name: str, program: str, words: list[str], is_drawn: bool):
        ours, its = os.pipe()
        pipe = subprocess.PIPE if is_drawn else None
        self.process = subprocess.Popen([name, *words], executable=program, pass_fds=(its,), stdout=pipe, stderr=pipe,
                                        stdin=subprocess.DEVNULL if is_drawn else None,
                                        env={**os.environ, "RECORD_LIVE": str(its)})
        os.close(its)
        self.keeps = any(word.startswith("--files") for word in words)
        self.source = Source(wants_lines=not is_drawn)
        self.source.read(ours, 2, has_pictures=True)
        for stream, file in ((1, self.process.stdout), (2, self.process.stderr)):
            if file:
                self.source.read(file.fileno(), stream, has_pictures=False)
        # Ctrl-C reaches the recorder too, which ends then. Any other signal is for this program alone.
        signal.signal(signal.SIGINT, lambda number, frame: None)
        signal.signal(signal.SIGTERM, self.pass_on)

    def pass_on(self, number: int, _: FrameType | None) -> None:
        self.process.send_signal(number)

    def keep(self) -> str:
        if not self.keeps:
            return NOTHING_TO_KEEP
        self.process.send_signal(signal.SIGUSR1)
        return "asked to keep the files"

    def quit(self) -> str:
        """As Ctrl-C does: the program that is recorded gets the signal too."""
        os.killpg(0, signal.SIGINT)
        return "the recording ends"


def write(file: BinaryIO, data: bytes) -> None:
    try:
        file.write(data)
        file.flush()
    except OSError:
        pass  # nobody reads it


def pass_on(said: list[tuple[int, bytes]]) -> None:
    for stream, line in said:
        write(sys.stdout.buffer if stream == 1 else sys.stderr.buffer, line)


def draw(recorder: Recorder, names: Names) -> None:
    source = recorder.source
    if wait_for_picture(source, lambda: pass_on(source.taken_said())):
        pass_on(watch(source, names, Actions(recorder.keep, recorder.quit)))


def named(line: bytes, names: Names) -> bytes:
    """A line, with the name of its method if that is known."""
    reader = Reader()
    reader.take("live 0")
    reader.take(line.decode("ascii", "replace"))
    made = reader.picture
    codes = [(call.interface, call.code) for call in made.rates] if made else []
    codes += [(call.interface, call.code) for call in made.open] if made else []
    method = names.get(codes[0]) if codes else None
    return line + (b" method=" + method.encode() if method else b"") + b"\n"


def write_lines(source: Source, names: Names, tell: Callable[[], None]) -> None:
    """Until the recorder has ended."""
    while True:
        has_ended = source.has_ended()
        tell()
        for line in source.taken_lines():
            write(sys.stdout.buffer, named(line, names))
        if has_ended:
            return
        source.threads[0].join(0.1)


def main(name: str, program: str, words: list[str]) -> int:
    locale.setlocale(locale.LC_ALL, "")
    tables, words = take_methods(words)
    names = known(tables)
    is_drawn = sys.stdout.isatty() and sys.stdin.isatty() and is_known_terminal()
    recorder = Recorder(name, program, words, is_drawn)
    if is_drawn:
        draw(recorder, names)
    else:
        write_lines(recorder.source, names, lambda: None)
    status = recorder.process.wait()
    pass_on(recorder.source.taken_said())
    return 128 - status if status < 0 else status
