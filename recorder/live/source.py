"""What comes from a recorder: pictures, and what else is said. Threads read it, so that nobody waits for the screen."""

import os
import threading

from recorder.live.lines import MARK, Picture, Reader

PIECE = 65536
LONGEST_LINE = 1 << 20  # of what has no end a part is passed on


class Source:
    """`picture` is the latest one. What is said waits in `said` until somebody takes it."""

    def __init__(self, wants_lines: bool = False) -> None:
        self.picture: Picture | None = None
        self.pictures = 0
        self.wants_lines = wants_lines
        self.lines: list[bytes] = []  # of pictures, as they came, if somebody wants them
        self.said: list[tuple[int, bytes]] = []
        self.lock = threading.Lock()
        self.threads: list[threading.Thread] = []

    def read(self, descriptor: int, stream: int, has_pictures: bool) -> None:
        """Reads this descriptor until its end. What is said there is of this stream: 1 or 2."""
        thread = threading.Thread(target=self.listen, args=(descriptor, stream, has_pictures), daemon=True)
        self.threads.append(thread)
        thread.start()

    def has_ended(self) -> bool:
        return not any(thread.is_alive() for thread in self.threads)

    def listen(self, descriptor: int, stream: int, has_pictures: bool) -> None:
        waiting = b""
        reader = Reader()
        while piece := os.read(descriptor, PIECE):
            *lines, waiting = (waiting + piece).split(b"\n")
            if len(waiting) > LONGEST_LINE:
                lines, waiting = [*lines, waiting], b""
            for line in lines:
                if has_pictures and line.startswith(MARK):
                    self.take(reader, line[len(MARK):])
                else:
                    self.say(stream, line + b"\n")
        if waiting:
            self.say(stream, waiting)

    def take(self, reader: Reader, line: bytes) -> None:
        picture = reader.take(line.decode("ascii", "replace"))
        with self.lock:
            if self.wants_lines:
                self.lines.append(line)
            if picture:
                self.picture = picture
                self.pictures += 1

    def say(self, stream: int, line: bytes) -> None:
        with self.lock:
            self.said.append((stream, line))

    def taken_said(self) -> list[tuple[int, bytes]]:
        with self.lock:
            said, self.said = self.said, []
        return said

    def taken_lines(self) -> list[bytes]:
        with self.lock:
            lines, self.lines = self.lines, []
        return lines
