"""Small captures to their results, one after another in one process, with a database that is reused. What is not as
usual, it leaves: then the result is made by a process for this capture alone, as `fleet one` does."""

import contextlib
import os
import pathlib
import sqlite3
from typing import Iterator

from lab import result
from lab.one import Inputs
from viewer.database.loading import LEAST_PACKED, bytes_of, judged, read
from viewer.database.programs import path_of
from viewer.database.raw_tables import RULED_FILE, empty_database, loader
from viewer.database.reused import Reusable
from viewer.database.side_list import joined_sides
from viewer.defects.seen import text_of
from viewer.files import State, state_of
from viewer.methods.known import Methods, methods_of
from viewer.program_names import BEHIND


class Changed(Exception):
    """A program, or the empty database, is no longer what it was when this process began."""


@contextlib.contextmanager
def silenced() -> Iterator[None]:
    """In this block programs say nothing: what they say counts if the capture is read alone."""
    said = os.dup(2)
    try:
        with open(os.devnull, "wb") as nothing:
            os.dup2(nothing.fileno(), 2)
        yield
    finally:
        os.dup2(said, 2)
        os.close(said)


class Maker:
    """Makes results by the programs of the folder `root`, in a folder for scratch. If it fails, it can't go on."""

    def __init__(self, root: pathlib.Path, room: pathlib.Path) -> None:
        self.root, self.room = root, room
        self.reusable = Reusable(room / "reused.db")
        self.methods: tuple[dict[str, State], Methods] = {}, {}
        self.files = [*(path_of(root, name) for name in BEHIND), loader(), empty_database(RULED_FILE)]
        self.states = self.states_of_files()

    def states_of_files(self) -> list[State]:
        """The programs are looked at once, when all begins. From then on this says that they are the same."""
        return [state_of(str(path)) for path in self.files]

    def takes(self, inputs: Inputs) -> bool:
        """Whether a capture is small enough for a database whose tables are not packed."""
        return bytes_of([*inputs.files, *inputs.sides]) < LEAST_PACKED

    def methods_of(self, paths: list[str]) -> Methods:
        """The methods of tables, which are those of the capture before in most cases."""
        states = {path: state_of(path) for path in paths}
        if states != self.methods[0]:
            self.methods = states, methods_of(paths)
        return self.methods[1]

    def result_of(self, inputs: Inputs) -> dict:
        """The result of a capture. Whatever else it does is an error."""
        if self.states_of_files() != self.states:
            raise Changed
        methods = self.methods_of(inputs.methods)
        made, joined = self.room / "capture.db", self.room / "joined.side"
        side = joined_sides(inputs.sides, joined) if inputs.sides else None
        with silenced():
            has = read(self.root, inputs.files, side, made, RULED_FILE, self.reusable.load)
        database = self.reusable.database
        assert database
        judged(database, inputs.files, side, has, lambda _: None, methods, inputs.sides, is_reused=True)
        summary = self.summary(database)
        self.reusable.end()
        joined.unlink(missing_ok=True)
        return summary

    def close(self) -> None:
        self.reusable.close()

    @staticmethod
    def summary(database: sqlite3.Connection) -> dict:
        """The result of a database, of which texts are read as those of one that is kept."""
        database.text_factory = text_of
        try:
            return result.summary(database)
        finally:
            database.text_factory = str
