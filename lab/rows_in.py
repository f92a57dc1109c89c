"""Rows that are put into the tables of a lab, many by one statement: most of what a statement of one row takes is the
statement."""

import functools
import sqlite3
from collections.abc import Iterable, Mapping, Sequence
from itertools import chain

# Of how many rows there is a statement, the longest first.
AT_ONCE = (64, 8, 1)


@functools.lru_cache(maxsize=1000)
def insertion(table: str, how: str, same: tuple[str, ...], other: tuple[str, ...], rows: int) -> str:
    """The statement that puts so many rows into a table. They have the same values in some of the columns, which are
    given once, before the others."""
    first = [f"?{number + 1}" for number in range(len(same))]
    values = (f"({', '.join([*first, *(f'?{len(same) + row * len(other) + at + 1}' for at in range(len(other)))])})"
              for row in range(rows))
    return f"{how} INTO {table}({', '.join((*same, *other))}) VALUES {', '.join(values)}"


def insert(lab: sqlite3.Connection, table: str, columns: Mapping[str, Sequence[object]], how: str = "INSERT") -> None:
    """Puts rows into a table, given by their columns."""
    amount = len(next(iter(columns.values())))
    if not amount:
        return
    same = {name: values[0] for name, values in columns.items() if values.count(values[0]) == amount}
    other = [name for name in columns if name not in same] or [same.popitem()[0]]
    rows, begin = [*zip(*(columns[name] for name in other))], 0
    for many in AT_ONCE:
        end = amount - (amount - begin) % many
        groups: Iterable[list[object]] = ([*same.values(), *chain.from_iterable(rows[at:at + many])]
                                          for at in range(begin, end, many))
        lab.executemany(insertion(table, how, tuple(same), tuple(other), many), groups)
        begin = end


class Numbered:
    """A table in which each row is there once, whatever number of results have it. It gives rows their numbers."""

    def __init__(self, lab: sqlite3.Connection, table: str, names: Sequence[str]):
        self.lab, self.table, self.names = lab, table, [*names]
        self.numbers: dict[tuple, int] = {}
        self.last = 0

    def read(self) -> None:
        """Reads what others have put into the table. It is to be called in a transaction that writes, before rows are
        given."""
        for number, *row in self.lab.execute(
                f"SELECT id, {', '.join(self.names)} FROM {self.table} WHERE id > ? ORDER BY id", (self.last,)):
            self.numbers.setdefault(tuple(row), number)
            self.last = number

    def of(self, rows: Iterable[tuple]) -> list[int]:
        """The numbers of rows. Those that the table lacks are put into it."""
        given = [*rows]
        found = [*map(self.numbers.get, given)]
        if None in found:
            new = dict.fromkeys(row for row, number in zip(given, found) if number is None)
            numbers = range(self.last + 1, self.last + 1 + len(new))
            self.numbers.update(zip(new, numbers))
            self.last = numbers[-1]
            insert(self.lab, self.table, dict(zip(("id", *self.names), [numbers, *zip(*new)])))
            found = [*map(self.numbers.get, given)]
        return found  # type: ignore[return-value]
