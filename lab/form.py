"""The form of a result: the fields of each of its parts, and of which kind their values are. A result may come from
anywhere, so nothing of it is used before it is known to have this form.

In a file each text of the lists is there once, in `names`: a row has the place of its texts in that list. And a list
has its columns, each with the values of all rows, or the one value that all have, but for the first column. This is
form 3. In files of form 2 a list has the names of its columns, and rows without names; in those of form 1 a row is an
object."""

import contextlib
import math
import re
from array import array
from collections.abc import Iterator, Sequence
from types import NoneType
from typing import Any, Callable, Collection, NamedTuple

from viewer.defects.seen import RANKS


class Kind(NamedTuple):
    """What the value of a field is, as a message says it; a function that knows such values; and the types that SQLite
    may give them in a lab."""
    what: str
    fits: Callable[[object], bool]
    types: tuple[str, ...]
    may_lack: bool = False

    def takes(self, value: object) -> bool:
        return value is None and self.may_lack or self.fits(value)

    def takes_all(self, values: Sequence[Any]) -> bool:
        """Whether all are such values. Each is looked at once, however often it is there."""
        types = {*map(type, values)}
        if self.fits is is_whole and types <= {int, NoneType}:
            return (self.may_lack or NoneType not in types) and are_of_64_bits(values)
        if len(types - {NoneType}) > 1:  # values of several types can be equal, as 1 and true are
            return all(map(self.takes, values))
        try:
            return all(map(self.takes, {*values}))
        except TypeError:  # a list, or an object
            return False


def are_of_64_bits(numbers: Sequence[Any]) -> bool:
    """Whether an array of C takes all the numbers, which is the quickest way to know."""
    try:
        array("q", [number for number in numbers if number is not None] if None in numbers else numbers)
    except OverflowError:
        return False
    return True


def is_text(value: object) -> bool:
    """Whether a value is a text that a file can have: JSON also has halves of characters."""
    return isinstance(value, str) and (value.isascii() or not re.search("[\ud800-\udfff]", value))


def are_texts(values: list) -> bool:
    """Whether all are such texts."""
    return {*map(type, values)} <= {str} and ("".join(values).isascii() or all(map(is_text, values)))


def is_whole(value: object) -> bool:
    return type(value) is int and -2**63 <= value < 2**63


def is_number(value: object) -> bool:
    return is_whole(value) or type(value) is float and math.isfinite(value)


def hexadecimal(digits: int) -> Kind:
    return Kind(f"{digits} hexadecimal digits",
                lambda value: isinstance(value, str) and re.fullmatch(f"[0-9a-f]{{{digits}}}", value) is not None,
                ("text",))


def optional(kind: Kind) -> Kind:
    return kind._replace(types=(*kind.types, "null"), may_lack=True)


TEXT = Kind("a text", is_text, ("text",))
NAME = Kind("a name", lambda value: is_text(value) and value != "", ("text",))
WHOLE = Kind("a whole number of 64 bits", is_whole, ("integer",))
NUMBER = Kind("a number", is_number, ("integer", "real"))
KEY = hexadecimal(16)
VERDICT = Kind("a verdict", lambda value: isinstance(value, str) and value in RANKS, ("text",))


def fields(kind: Kind, names: str) -> dict[str, Kind]:
    return dict.fromkeys(names.split(), kind)


# What a result says of its capture.
CAPTURE = {
    "digest": hexadecimal(32), "basis": optional(hexadecimal(32)), "build": NAME, "device": NAME, "made": NUMBER,
    "left_out": WHOLE,
    **fields(optional(TEXT), "file doubt malformed failed kernel version"), "seconds": optional(NUMBER),
    **fields(optional(WHOLE), "begun bytes frames records missing lost side prints methods")}

# What a row is of each of the lists of a result.
ROWS = {
    "found": {"key": KEY, "verdict": VERDICT, **fields(TEXT, "kind who path"), "n": WHOLE,
              **fields(optional(TEXT), "call rules own_path note"),
              **fields(optional(WHOLE), "n_all waiting age place")},
    "talk": {**fields(optional(TEXT), "caller server interface method call"),
             **fields(optional(WHOLE), "code oneway sends failed refused open bytes buffers longest")},
    "held": {"process": optional(TEXT),
             **fields(optional(WHOLE), "buffers buffers_most bytes bytes_most refs refs_most calls_most")},
    "times": {**fields(optional(TEXT), "server call"), "calls": WHOLE, **fields(optional(WHOLE), "queue work")}}

# The lists that results of earlier versions lack.
LATER = ("times",)


def wrong_in(where: str, given: object, form: dict[str, Kind]) -> str | None:
    """What is wrong with an object of a result, if something is."""
    if not isinstance(given, dict):
        return f"{where} is no object"
    for name, kind in form.items():
        if not kind.takes(given.get(name)):
            return f"{where}.{name} is not {kind.what}"
    return None


def wrong_rows(name: str, given: object) -> str | None:
    """What is wrong with a list of a result, if something is."""
    if not isinstance(given, (list, Rows)):
        return f"{name} is no list"
    return next(filter(None, (wrong_in(f"{name}[{at}]", row, ROWS[name]) for at, row in enumerate(given))), None)


def wrong(result: object, right: Collection[str] = ()) -> str | None:
    """What is wrong with the form of a result; None if nothing is. The lists `right` are known to be right."""
    if not isinstance(result, dict):
        return "it is no object"
    why = wrong_in("capture", result.get("capture"), CAPTURE)
    for name in ROWS:
        why = why or (None if name in right else wrong_rows(name, result.get(name)))
    if why is None and len({row["key"] for row in result["found"]}) < len(result["found"]):
        return "found has a key twice"
    return why


# ---- as a file has it

# The form of the files that are written.
FORM = 3


def is_named(kind: Kind) -> bool:
    """Whether a row has the place of the value in `names`. Verdicts are words of our own, and keys differ."""
    return "text" in kind.types and kind not in (VERDICT, KEY)


def folded(result: dict) -> dict:
    """A result as a file has it."""
    names: dict[str, int] = {}

    def value_of(kind: Kind, value: object) -> object:
        return names.setdefault(value, len(names)) if is_named(kind) and isinstance(value, str) else value

    lists = {name: said_once({column: [value_of(kind, row.get(column)) for row in result.get(name, ())]
                              for column, kind in form.items()}) for name, form in ROWS.items()}
    return {"form": FORM, "capture": result["capture"], "names": [*names], **lists}


def said_once(columns: dict[str, list]) -> dict[str, object]:
    """Columns of a list, with one value in the place of those that all rows have, but for the first."""
    first, *others = columns
    return {first: columns[first], **{
        name: columns[name][0] if columns[first] and columns[name].count(columns[name][0]) == len(columns[name])
        else columns[name] for name in others}}


class Rows(Sequence[dict]):
    """Rows of a list, by columns: a lab takes these as they are, and a row is made only for who asks for it."""

    def __init__(self, columns: dict[str, Sequence[object]], amount: int):
        self.columns, self.amount = columns, amount

    def __len__(self) -> int:
        return self.amount

    def __getitem__(self, at):  # type: ignore[no-untyped-def]
        return {name: values[at] for name, values in self.columns.items()}

    def __iter__(self) -> Iterator[dict]:
        return (dict(zip(self.columns, row)) for row in zip(*self.columns.values()))

    def column(self, name: str) -> Sequence[object]:
        return self.columns[name] if name in self.columns else [None] * self.amount


class Unfolding:
    """A file of form 2 or 3 that is unfolded to a result. What can't be is told by `why`."""

    def __init__(self, given: dict, form: int):
        names = given.get("names")
        texts = names if isinstance(names, list) else []
        self.are_texts = are_texts(texts)
        self.names: dict[object, object] = {None: None, **dict(enumerate(texts))}
        self.why = None if isinstance(names, list) else "names is no list"
        self.right: set[str] = set()
        columns = self.of_rows if form == 2 else self.of_columns
        self.result: dict = {"capture": given.get("capture")}
        for name in ROWS:
            is_there = name in given or name not in LATER
            self.result[name] = self.rows(name, columns(name, given.get(name)) if is_there else {})

    def of_columns(self, name: str, given: object) -> dict[str, Sequence[object]]:
        """The columns of a list of form 3."""
        if not isinstance(given, dict):
            return self.refused(f"{name} is no object")
        first, *others = ROWS[name]
        if not isinstance(given.get(first), list):
            return self.refused(f"{name}.{first} is no list")
        amount = len(given[first])
        there = {first: given[first]}
        for column in others:
            values = given.get(column)
            there[column] = values if isinstance(values, list) else [values] * amount
            if len(there[column]) != amount:
                return self.refused(f"{name}.{column} has {len(there[column])} values for {amount} rows")
        return there

    def of_rows(self, name: str, given: object) -> dict[str, Sequence[object]]:
        """The columns of a list of form 2."""
        columns, rows = (given.get("columns"), given.get("rows")) if isinstance(given, dict) else (None, None)
        if not isinstance(columns, list) or not isinstance(rows, list) or any(type(one) is not str for one in columns):
            return self.refused(f"{name} has no columns and rows")
        if {*map(type, rows)} - {list} or {*map(len, rows)} - {len(columns)}:
            at = next(at for at, row in enumerate(rows) if not isinstance(row, list) or len(row) != len(columns))
            return self.refused(f"{name}.rows[{at}] is no row of {len(columns)} values")
        return dict(zip(columns, zip(*rows)))

    def refused(self, why: str) -> dict[str, Sequence[object]]:
        self.why = self.why or why
        return {}

    def rows(self, name: str, columns: dict[str, Sequence[object]]) -> Sequence[dict]:
        there = {column: self.named(name, column, columns[column]) if is_named(kind) else columns[column]
                 for column, kind in ROWS[name].items() if column in columns}
        amount = max(map(len, there.values()), default=0)
        if not amount or all(self.is_right(kind, there.get(column, (None,))) for column, kind in ROWS[name].items()):
            self.right.add(name)
        return Rows(there if amount else {}, amount)

    def is_right(self, kind: Kind, values: Sequence[object]) -> bool:
        """Whether all are values of a kind. If each of `names` is a text, so is each value that comes from it."""
        if is_named(kind) and self.are_texts:
            return kind.may_lack or None not in values
        return kind.takes_all(values)

    def named(self, name: str, column: str, places: Sequence[object]) -> Sequence[object]:
        """The texts of which the rows have the places in a column."""
        if {*map(type, places)} <= {int, NoneType}:
            with contextlib.suppress(KeyError):
                return [*map(self.names.__getitem__, places)]
        at = next(at for at, place in enumerate(places)
                  if place is not None and (type(place) is not int or place not in self.names))
        self.why = self.why or f"{name}[{at}].{column} is no place in names"
        return [None] * len(places)


def unfolded(given: object) -> tuple[dict, str | None]:
    """The result that a file has, of any form that was ever written, and what is wrong with it, if something is."""
    if not isinstance(given, dict):
        return {}, "it is no object"
    form = given.get("form", 1)
    if form == 1:
        result: dict = {**{name: [] for name in LATER}, **given}
        return result, wrong(result)
    if type(form) is not int or not 1 < form <= FORM:
        return {}, f"it is of form {form!a}, and not of form {FORM} or before"
    unfolding = Unfolding(given, form)
    return unfolding.result, unfolding.why or wrong(unfolding.result, unfolding.right)
