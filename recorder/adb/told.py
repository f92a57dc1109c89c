"""What `record --adb` tells: its own lines, and those of the recorder on the device."""

import os
import sys

from viewer import terminal
from viewer.terminal import shown

ENDING = "ending the recording on {}"
CLEAR = "\x1b[K"  # with which the recorder ends the line that shows the progress
OF_DEVICE = ("record: ready: ", "record: recording; ")  # lines that don't say of which device they are


def tell(line: str) -> None:
    terminal.tell("record", line)


def write(text: str) -> None:
    sys.stderr.write(text)
    sys.stderr.flush()


def as_told(line: bytes, serial: str) -> str:
    """A line as it is told here: without the progress that was in it, with the device, and without the next command,
    which would be one of the device."""
    text = line.decode(errors="replace")
    _, shows_progress, text = text.rpartition("\r")
    if text.startswith(OF_DEVICE):
        text = text.replace("record:", f"record: {serial}:", 1)
    text = "\t".join(map(shown, text.removeprefix(CLEAR).split("; next: ")[0].split("\t")))
    return f"{progress('')}{text}\n" if shows_progress else f"{text}\n"


def progress(text: str) -> str:
    """What shows the progress, in place of what is in the line."""
    return f"\r{shown(text)}{CLEAR}" if sys.stderr.isatty() else ""


def tell_all(said: bytes, serial: str) -> None:
    """Passes all lines on that the recorder said."""
    for line in said.removesuffix(b"\n").split(b"\n") if said else ():
        write(as_told(line, serial))


def pass_on(said: int, serial: str) -> None:
    """Passes on what comes by this descriptor: lines, and what shows the progress, which has no end of a line."""
    waiting = b""
    while piece := os.read(said, 65536):
        *lines, waiting = (waiting + piece).split(b"\n")
        for line in lines:
            write(as_told(line, serial))
        if waiting.startswith(b"\r"):
            waiting = waiting[waiting.rfind(b"\r"):]
            write(progress(waiting[1:].decode(errors="replace").removesuffix(CLEAR)))
    if waiting:
        write(as_told(waiting, serial))
