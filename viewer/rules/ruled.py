"""A new database in which the tables of the rules are already, empty: of a small capture it takes a tenth of the
processor to make them. It is for a database that is not kept, since here they are in its file and not beside it."""

import pathlib
import re
from contextlib import closing

from viewer.database.raw_tables import write_made
from viewer.database.sqlite import open_database
from viewer.rules.judging import BY_SECTION, NO_DATA, Judging, take_words
from viewer.rules.plan import FOLDER, Plan, plan_in

# The bytes of its pages. Each table has a page, and most tables of a small capture have few rows.
PAGE = 1024

# What says that a table, a view or an index is temporary.
TEMPORARY = re.compile(r"^(CREATE (?:UNIQUE )?(?:INDEX )?)(?:TEMP |temp\.)", re.MULTILINE)


def write(path: pathlib.Path) -> None:
    """Writes the database. Some queries find rows in empty tables, so all tables are emptied."""
    write_made(path)
    making = [it._replace(text=TEMPORARY.sub(r"\1", it.text)) for it in plan_in(FOLDER).statements if it.makes]
    with closing(open_database(path)) as database:
        take_words(database, NO_DATA)
        for statement in BY_SECTION:
            database.execute(statement)
        Judging(database, Plan(making, {}), None, None).judge()
        for it in making:
            if it.makes == "TABLE":
                database.execute(f"DELETE FROM {it.name}")
        database.execute(f"PRAGMA page_size={PAGE}")
        database.execute("VACUUM")
