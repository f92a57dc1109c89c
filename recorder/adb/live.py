"""`record --adb --live`: what the recorder on the device tells each second is drawn here, or written as lines."""

import locale
import subprocess
import sys
from typing import Callable

from recorder.live.here import NOTHING_TO_KEEP, known, write, write_lines
from recorder.live.screen import Actions, is_known_terminal, wait_for_picture, watch
from recorder.live.source import Source
from told import ENDING, as_told, write as write_told
from words import Words


class Shown:
    """What is drawn of a recording. A table of methods that is none ends the program before the recording begins."""

    def __init__(self, words: Words, serial: str):
        locale.setlocale(locale.LC_ALL, "")
        self.serial, self.names = serial, known(words.methods)
        self.keeps = any(word.startswith("--files") for word in words.options)
        self.is_drawn = sys.stdout.isatty() and sys.stdin.isatty() and is_known_terminal()
        self.source = Source(wants_lines=not self.is_drawn)

    def say_ending(self) -> None:
        """Where it disturbs no table."""
        self.source.say(2, f"record: {ENDING.format(self.serial)}\n".encode())

    def tell(self, said: list[tuple[int, bytes]]) -> None:
        """Passes on what the recorder, or on the other stream PROGRAM, said."""
        for stream, line in said:
            if stream == 1:
                write(sys.stdout.buffer, line)
            else:
                write_told(as_told(line.removesuffix(b"\n"), self.serial))

    def keep(self, program: subprocess.Popen[bytes]) -> str:
        if not self.keeps:
            return NOTHING_TO_KEEP
        try:
            assert program.stdin
            program.stdin.write(b"keep\n")
            program.stdin.flush()
        except OSError:
            return "the connection is gone"
        return "asked to keep the files"

    def until_end(self, program: subprocess.Popen[bytes], end: Callable[[], None]) -> None:
        """Shows it until the recorder has ended, or the connection is lost."""
        source = self.source
        for stream, file in ((1, program.stdout), (2, program.stderr)):
            if file:
                source.read(file.fileno(), stream, has_pictures=stream == 2)

        def quit() -> str:
            end()
            return "the recording ends"
        if not self.is_drawn:
            write_lines(source, self.names, lambda: self.tell(source.taken_said()))
        elif wait_for_picture(source, lambda: self.tell(source.taken_said())):
            self.tell(watch(source, self.names, Actions(lambda: self.keep(program), quit)))
        program.wait()
        self.tell(source.taken_said())
