"""Which tables have no row, or none for which something holds. Each is asked once, and again after it was changed."""

import sqlite3
from typing import Iterable

from viewer.rules.plan import Guards, Statement


def column_of(guard: str) -> str:
    """The column of which a guard says something."""
    return guard.partition(" WHERE ")[2].partition(" ")[0]


class Emptiness:
    """What is known of the tables of a database, by guards. Of the tables `made` it is known that they are empty."""

    def __init__(self, database: sqlite3.Connection, made: Iterable[str]) -> None:
        self.database = database
        self.known = dict.fromkeys(made, True)
        self.of = {table: {table} for table in self.known}

    def finds_nothing(self, guards: Guards) -> bool:
        """Whether each part has a guard without rows."""
        known = self.known
        for part in guards:
            for one in part:
                if isinstance(one, tuple):
                    is_empty = self.finds_nothing(one)
                elif one in known:
                    is_empty = known[one]
                else:
                    is_empty = self.ask(one)
                if is_empty:
                    break
            else:
                return False
        return bool(guards)

    def ask(self, guard: str) -> bool:
        is_empty = self.database.execute(f"SELECT 1 FROM {guard} LIMIT 1").fetchone() is None
        self.learn(guard, is_empty)
        return is_empty

    def learn(self, guard: str, is_empty: bool) -> None:
        self.known[guard] = is_empty
        self.of.setdefault(guard.partition(" ")[0], set()).add(guard)

    def changed(self, by: Statement) -> None:
        """A statement has changed rows of its table. What is known stays where it leaves what that is known by."""
        for guard in list(self.of.get(by.name, ())):
            if column_of(guard) in by.sets if by.sets else self.known[guard] or not by.adds:
                self.of[by.name].remove(guard)
                del self.known[guard]
        if by.adds:
            self.learn(by.name, False)

    def forget(self, table: str) -> None:
        """A table was changed in some way."""
        for guard in self.of.pop(table, ()):
            del self.known[guard]
