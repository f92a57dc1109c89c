"""The last name of each process and thread, by the lines `name` of a side list.

A line is for all rows of a number of the system that have not ended. A process may have as many rows as it opens
devices, and take as many names. So a line is only noted, and a row gets its name when it ends, or when the list does:
then a line takes the same time, however many rows it is for."""

import sqlite3


class LastNames:
    """The last names for the rows of a table, in which `number` is the system's number. Rows are counted as they come,
    and have their counts as rowid; a name that was noted is for none of the rows that came later. `name` is what a row
    is called now, for an UPDATE of it."""

    def __init__(self, database: sqlite3.Connection, table: str, number: str):
        self.database, self.table, self.number, self.count = database, table, number, 0
        self.noted = f"last_name_of_{table}"
        # A database that is reused has the table, with the names of another capture.
        database.execute(f"CREATE TEMP TABLE IF NOT EXISTS {self.noted}(number INTEGER PRIMARY KEY, until INTEGER,"
                         " name TEXT)")
        database.execute(f"DELETE FROM {self.noted}")
        self.name = (f"coalesce((SELECT l.name FROM {self.noted} l WHERE l.number = {table}.{number}"
                     f" AND l.until >= {table}.rowid), name)")

    def next_row(self) -> int:
        """The rowid of a row that comes now."""
        self.count += 1
        return self.count

    def note(self, number: int, name: str) -> None:
        self.database.execute(f"INSERT OR REPLACE INTO {self.noted} VALUES (?, ?, ?)", (number, self.count, name))

    def give(self) -> None:
        """Gives their names to the rows that have not ended."""
        self.database.execute(f"UPDATE {self.table} SET name = {self.name} WHERE ended IS NULL"
                              f" AND {self.number} IN (SELECT number FROM {self.noted})")
