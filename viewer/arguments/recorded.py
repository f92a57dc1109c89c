"""What the transactions and replies of a capture say: from its database, which has where their data are, and its files,
which have the data."""

import sqlite3
from typing import Iterator, NamedTuple

from viewer.arguments.read import Asked, Data, Said, reply, request, token_of
from viewer.arguments.sources import Declarations
from viewer.database.data_hash import ENTRY_HEADER, Data as Files

# The records that have data, each with the call that it answers if it is a reply.
RECORDS = """
SELECT r.place, k.name GLOB '*REPLY*', r.flags, r.data_size, r.offsets_size, r.attachment, i.name, r.code, oi.name,
  o.code, o.data_size, o.attachment
FROM raw_record r JOIN kind k ON k.number = r.kind LEFT JOIN raw_interface i ON i.id = r.interface
  LEFT JOIN raw_call c ON c.closer = r.place LEFT JOIN raw_record o ON o.place = c.place
  LEFT JOIN raw_interface oi ON oi.id = o.interface
WHERE k.name IN ('BC_TRANSACTION', 'BC_TRANSACTION_SG', 'BC_REPLY', 'BC_REPLY_SG', 'BR_TRANSACTION',
  'BR_TRANSACTION_SEC_CTX', 'BR_REPLY') AND r.data_size <> 0
"""

TF_STATUS_CODE, TF_CLEAR_BUF = 0x08, 0x20

# Why a capture has no arguments, by what `payloads` of the side list says.
WITHOUT = {"redacted": "the recording is redacted, so it has no arguments",
           "none": "the recording has no data, so it has no arguments"}


class Row(NamedTuple):
    """A row of RECORDS."""
    place: int
    is_reply: int
    flags: int
    data_size: int
    offsets_size: int
    attachment: int | None
    interface: str | None
    code: int
    asked_interface: str | None
    asked_code: int | None
    asked_size: int | None
    asked_attachment: int | None


class Found(NamedTuple):
    """What a record says, and the place of its data in the capture; or why it can't be known."""
    said: Said | None
    at: int
    why: str

    def __str__(self) -> str:
        return self.why if self.said is None else str(self.said)


class Arguments:
    """The arguments of a capture. It says the same of the same record, so what is not asked for need not be read."""

    def __init__(self, database: sqlite3.Connection, files: Files, declarations: Declarations) -> None:
        self.database, self.files, self.declarations = database, files, declarations
        self.are_taken = False
        payloads = database.execute("SELECT value FROM capture WHERE key = 'payloads'").fetchone()
        self.why_none = WITHOUT.get(payloads[0]) if payloads else None

    def of(self, place: int) -> Found | None:
        """What the record at this place says; None of one that has no data."""
        row = self.database.execute(f"{RECORDS} AND r.place = ?", (place,)).fetchone()
        return self.found(Row(*row)) if row else None

    def text(self, place: int) -> str | None:
        """The same as one text. A database that has all of them is asked: it has no index by which a reply finds its
        call."""
        if self.are_taken:
            row = self.database.execute("SELECT text FROM argument WHERE place = ?", (place,)).fetchone()
            return row[0] if row else None
        if self.why_none:
            has_data = self.database.execute("SELECT data_size FROM raw_record WHERE place = ?", (place,)).fetchone()
            return self.why_none if has_data and has_data[0] else None
        found = self.of(place)
        return str(found) if found else None

    def every(self) -> Iterator[tuple[int, str]]:
        """What each record says, in the order of places."""
        for values in self.database.execute(f"{RECORDS} ORDER BY r.place"):
            row = Row(*values)
            yield row.place, str(self.found(row))

    def found(self, row: Row) -> Found:
        if why := self.why_not(row):
            return Found(None, 0, why)
        assert row.attachment is not None
        data = self.data(row.attachment, row.data_size, row.offsets_size)
        if row.is_reply:
            said = reply(self.declarations, data, bool(row.flags & TF_STATUS_CODE), self.asked(row))
        else:
            said = request(self.declarations, data, row.interface, row.code)
        return Found(said, row.attachment + ENTRY_HEADER, "")

    def why_not(self, row: Row) -> str | None:
        if self.why_none:
            return self.why_none
        if row.flags & TF_CLEAR_BUF:
            return "its sender says that they are secret, by TF_CLEAR_BUF"
        return "its data are not in the capture" if row.attachment is None else None

    def data(self, attachment: int, size: int, offsets_size: int) -> Data:
        held = self.files.bytes_of(attachment, size + offsets_size)
        offsets = [int.from_bytes(held[at:at + 8], "little") for at in range(size, len(held) - 7, 8)]
        return Data(held[:size], offsets)

    def asked(self, row: Row) -> Asked | None:
        """The call that a reply answers, if its data name the interface."""
        if row.asked_interface is None or row.asked_code is None or row.asked_attachment is None:
            return None
        begin = Data(self.files.bytes_of(row.asked_attachment, row.asked_size or 0))
        token = token_of(begin, row.asked_interface)
        return Asked(row.asked_interface, row.asked_code, token.has_stability) if token else None


def take_all(database: sqlite3.Connection, arguments: Arguments) -> None:
    """Puts what all transactions and replies say into the database."""
    database.execute("INSERT INTO capture VALUES ('arguments', ?)", (arguments.why_none or "taken",))
    if not arguments.why_none:
        database.executemany("INSERT INTO argument VALUES (?, ?)", list(arguments.every()))
        arguments.are_taken = True
    database.commit()
