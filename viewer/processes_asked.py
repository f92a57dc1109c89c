"""Which processes a word of the command line means: a number of the system or of the capture, or a name."""

import os
import sqlite3

from viewer.files import Stopped
from viewer.terminal import shown

# By a number; by the whole name, or what the page calls it; or else by a part of the name.
BY_NUMBER = "SELECT upid FROM process WHERE ?1 IN (CAST(pid AS TEXT), CAST(process AS TEXT)) ORDER BY upid"
BY_NAME = "SELECT upid FROM process LEFT JOIN who USING (upid) WHERE ?1 IN (name, who) ORDER BY upid"
BY_PART = "SELECT upid FROM process WHERE instr(name, ?1) ORDER BY upid"


def as_name(word: str) -> str:
    """A word of the command line, as names are in the database: what is no UTF-8 is replaced."""
    return os.fsencode(word).decode(errors="replace")


def processes_of(database: sqlite3.Connection, word: str, option: str) -> list[int]:
    """The upids of the processes that a word means; those of one name are all meant."""
    word = as_name(word)
    for query in (BY_NUMBER,) if word.isascii() and word.isdigit() else (BY_NAME, BY_PART):
        if found := [upid for upid, in database.execute(query, (word,))]:
            return found
    raise Stopped(1, f"{option}: the capture has no process {shown(word)}")
