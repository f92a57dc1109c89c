"""Guards, on queries of tables with a row or none: where a guard says that nothing is found, SQLite finds nothing."""

import itertools
import sqlite3
from contextlib import closing
from typing import Iterator

from viewer.rules.guards import finds_nothing, guards_of

TABLES = "CREATE TABLE a(x); CREATE TABLE b(x); CREATE TABLE finding(section)"
ROWS = {"a": (None, 1), "b": (None, 1), "finding": (None, "calls", "deaths")}

# Queries of which guards know each time that they find nothing.
KNOWN = (
    "SELECT 1 FROM a", "SELECT 1 FROM a, b", "SELECT 1 FROM a JOIN b USING (x)", "SELECT 1 FROM a LEFT JOIN b",
    "SELECT 1 FROM a UNION ALL SELECT 1 FROM b", "SELECT 1 FROM (SELECT x FROM a) JOIN b USING (x)",
    "WITH c AS (SELECT x FROM a) SELECT 1 FROM c, b", "SELECT 1 FROM a WHERE EXISTS (SELECT 1 FROM b)",
    "SELECT 1 FROM a WHERE x IN (SELECT x FROM b)", "SELECT 1 FROM a WHERE (x, 1) IN (SELECT x, x FROM b)",
    "SELECT count(*) FROM a", "SELECT count(*) FROM a GROUP BY x", "SELECT max(x, 0) FROM a",
    "SELECT max(x) OVER () FROM a", "SELECT total(a.x) FROM a, b", "SELECT 1 FROM a, (SELECT count(*) FROM b)",
    "SELECT 1 FROM finding WHERE section = 'calls'", "SELECT 1 FROM finding f, a WHERE f.section IN ('calls', 'ages')",
    "WITH RECURSIVE c(x) AS (SELECT x FROM a UNION ALL SELECT x + 1 FROM c WHERE x < 3) SELECT 1 FROM c")
# Queries of which they need not know it.
UNKNOWN = (
    "SELECT 1 FROM a WHERE NOT EXISTS (SELECT 1 FROM b)", "SELECT 1 FROM a WHERE x NOT IN (SELECT x FROM b)",
    "SELECT 1 FROM a WHERE x > 0 OR EXISTS (SELECT 1 FROM b)", "SELECT 1 FROM a WHERE (SELECT x FROM b) IS NULL",
    "SELECT 1 FROM a WHERE x = 1 OR x = 2 AND x IN (SELECT x FROM b)",
    "SELECT 1 FROM a WHERE EXISTS (SELECT 1 FROM b) = 0", "SELECT 1 FROM finding WHERE section <> 'calls'",
    "SELECT 1 FROM a WHERE 1 NOT IN (SELECT x FROM b) AND x = 1", "SELECT 1 FROM finding WHERE NOT section = 'calls'",
    "SELECT 1 FROM a LEFT JOIN finding WHERE section IS NULL",
    "SELECT 1 FROM a LEFT JOIN b ON b.x = 2 WHERE coalesce(b.x, 1) = 1")


def faults_of_guards() -> Iterator[str]:
    """What is wrong with the guards of these queries."""
    for rows in itertools.product(*ROWS.values()):
        with closing(sqlite3.connect(":memory:")) as database:
            database.executescript(TABLES)
            for table, row in zip(ROWS, rows):
                if row is not None:
                    database.execute(f"INSERT INTO {table} VALUES (?)", (row,))
            for query in (*KNOWN, *UNKNOWN):
                says = finds_nothing(guards_of(query), lambda guard: database.execute(guard.query).fetchone() is None)
                finds = database.execute(query).fetchone() is not None
                if says and finds or query in KNOWN and says == finds:
                    yield f"guards of {query}, rows {rows}: {'nothing' if says else 'something'} may be found"
