"""The wrong forms of a statement: each differs from it in one place, and says where.

- a term of a condition is left out: of those that AND joins, of those that OR joins, of a pair of rows that are
  compared, of the columns of USING, GROUP BY and PARTITION BY, of a list after IN
- a comparison is turned: `<` to `>`, `=` to `<>`, IN to NOT IN
- a threshold is moved by one, a time to half and to twice as much, a share by a tenth; and so is a number with which
  something is compared by its order
- a side of iif, a WHEN, an argument of coalesce or nullif, a summand, a part of a text, a column of an order, a part
  of a UNION, an assignment, a row of VALUES, or the whole statement is left out
- two columns of a SELECT that stand side by side are exchanged
- min is max, max is min, a sum is max, an order is the other way round, a LEFT JOIN is a JOIN, DISTINCT is left out

An index has none: it makes other statements faster, and changes nothing.
"""

import re
from itertools import chain
from typing import Iterator, Mapping, NamedTuple

from viewer.rules.sql import CLAUSES, Clause, Group, Item, Token, clauses, items_of, span, split

# From here on a threshold is a time in nanoseconds.
TIME = 1_000_000

TURNED = {"<": ">", ">": "<", "<=": ">=", ">=": "<=", "=": "<>", "<>": "=", "NOTNULL": "ISNULL", "ISNULL": "NOTNULL"}
NEGATED = ("IN", "GLOB", "LIKE", "BETWEEN", "EXISTS")
ORDERED = ("<", ">", "<=", ">=")
COMPARED = (*ORDERED, "=", "<>", "IS", "IN", "BETWEEN", "GLOB", "LIKE")
EXCHANGED = {"min": "max", "max": "min", "sum": "max"}
# What ends a comparison.
BOUNDS = ("AND", "OR", "NOT", "AS", "DISTINCT", ",", ";")


class Form(NamedTuple):
    """A wrong form: what it does, as a person reads it, the statement, and the stretch of the right one that
    differs."""
    what: str
    statement: str
    start: int
    end: int


class Change(NamedTuple):
    """What a form does at one stretch of the statement: what it puts there."""
    what: str
    start: int
    end: int
    text: str


def forms_of(statement: str, thresholds: Mapping[str, float]) -> list[Form]:
    """All wrong forms of a statement. Two that do the same somewhere else have a number."""
    found, seen = [], {}
    for change in changes(statement, thresholds):
        seen[change.what] = seen.get(change.what, 0) + 1
        nth = f" ({seen[change.what]})" if seen[change.what] > 1 else ""
        wrong = statement[:change.start] + change.text + statement[change.end:]
        found.append(Form(change.what + nth, wrong, change.start, change.end))
    return found


def changes(statement: str, thresholds: Mapping[str, float]) -> Iterator[Change]:
    maker = Maker(statement, thresholds)
    items = items_of(statement)
    if any(item.says("INDEX") for item in items[:3]):
        return
    yield from left_out(statement, items)
    yield from maker.of_level(items)


def left_out(statement: str, items: list[Item]) -> Iterator[Change]:
    """The whole statement; of a table that it makes, all rows."""
    if items[0].says("UPDATE", "INSERT", "DELETE"):
        yield Change("the whole statement", 0, len(statement), "SELECT 1")
    query = next((item for before, item in zip(items, items[1:]) if before.says("AS")), None)
    if items[0].says("CREATE") and query is not None and query.says("SELECT", "WITH"):
        end = items[-1].start if items[-1].says(";") else items[-1].end
        rows = statement[query.start:end]
        yield Change("all rows", query.start, end, f"SELECT * FROM ({rows}\n) LIMIT 0")


def is_condition(group: Group) -> bool:
    """Whether what stands in parentheses are terms."""
    several = len(split(group.items, "AND")) > 1 or len(split(group.items, "OR")) > 1
    return several and not group.is_case and not group.is_query


class Maker:
    """Makes the changes of a statement."""

    def __init__(self, statement: str, thresholds: Mapping[str, float]) -> None:
        self.statement, self.thresholds = statement, thresholds

    def said(self, start: int, end: int) -> str:
        """A stretch of the statement as one line, which is cut if it is long."""
        text = " ".join(re.sub(r"--[^\n]*", "", self.statement[start:end]).split())
        return text if len(text) <= 90 else f"{text[:60]} .. {text[-25:]}"

    def without(self, items: list[Item], text: str, what: str = "without") -> Change:
        return Change(f"{what} {self.said(*span(items))}", *span(items), text)

    # -- a level, its clauses, and what is in them

    def of_level(self, items: list[Item]) -> Iterator[Change]:
        parts = clauses(items)
        yield from self.arms(items)
        for clause in parts:
            yield from self.of_clause(clause)
        yield from chain.from_iterable(self.of_group(items, at) for at in range(len(items)))
        yield from self.of_tokens(items, parts)

    def of_clause(self, clause: Clause) -> Iterator[Change]:
        if clause.says("WHERE", "HAVING"):
            yield from self.terms(clause.items)
        elif clause.says("WHEN"):
            yield from self.terms(clause.items)
            yield self.without(clause.items, "0", "never")
        elif clause.says("ON"):
            yield from self.terms(split(clause.items, ",")[0])
        elif clause.says("GROUP", "PARTITION"):
            yield from self.one_less(clause.items[1:], "not grouped by")
            if clause.says("PARTITION") and len(split(clause.items, ",")) == 1:
                columns = self.said(*span(clause.items[1:]))
                yield Change(f"not grouped by {columns}", clause.start, clause.items[-1].end, "")
        elif clause.says("ORDER"):
            yield from self.orders(clause.items[1:])
            yield from self.one_less(clause.items[1:], "not in the order of")
        elif clause.says("VALUES"):
            yield from self.one_less(clause.items, "without the row")
        elif clause.says("SET"):
            yield from self.one_less(clause.items, "without")
            for member in split(clause.items, ","):
                yield from self.value(member[2:])
        elif clause.says("USING") and clause.items:
            if isinstance(clause.items[0], Group):
                yield from self.one_less(clause.items[0].items, "not joined by")
        elif clause.says("LEFT"):
            assert clause.word is not None
            if not clause.items:
                yield Change("LEFT JOIN is JOIN", clause.word.start, clause.word.end, "")
        elif clause.says("SELECT"):
            if clause.items[0].says("DISTINCT"):
                yield Change("without DISTINCT", clause.items[0].start, clause.items[0].end, "")
            yield from self.exchanged(clause.items)
            for member in split(clause.items, ","):
                yield from self.value(split(member, "AS")[0])
        elif clause.says("THEN", "ELSE"):
            yield from self.value(clause.items)
        elif clause.word is None:
            for member in split(clause.items, ","):
                yield from self.text(member)

    def value(self, items: list[Item]) -> Iterator[Change]:
        """The terms of a value that is a condition; the parts of a text; the summands of a sum."""
        if len(split(items, "AND")) > 1 or len(split(items, "OR")) > 1:
            yield from self.terms(items)
        elif any(item.says("||") for item in items):
            yield from self.text(items)
        elif not any(item.says(*COMPARED) for item in items):
            yield from self.summands(items)

    def text(self, items: list[Item]) -> Iterator[Change]:
        """The parts of a text that is put together, each left out."""
        if not any(item.says("AND", "OR", *COMPARED) for item in items):
            yield from self.one_less(items, "text without", "||")

    def exchanged(self, items: list[Item]) -> Iterator[Change]:
        """The columns of a SELECT, each exchanged with the next one. The names of both stay where they are."""
        members = [split(member, "AS") for member in split(items[items[0].says("DISTINCT"):], ",")]
        for one, other in zip(members, members[1:]):
            # `AS left` is no name here: LEFT begins a clause.
            if not all((*one, *other)) or one[0][-1].says("*") or other[0][-1].says("*"):
                continue
            first, second = (self.statement[slice(*span(member[0]))] for member in (one, other))
            yield Change(f"exchanged: {self.said(*span(one[0]))} and {self.said(*span(other[0]))}", one[0][0].start,
                         other[-1][-1].end, f"{second}{self.name_in(one)}, {first}{self.name_in(other)}")

    def name_in(self, member: list[list[Item]]) -> str:
        """What a column of a SELECT is called, with AS: by a name of its own, or by that of the column that it is."""
        name = member[-1][-1]
        if len(member) > 1 or all(isinstance(item, Token) and (item.kind == "word" or item.says("."))
                                  for item in member[0]):
            return f" AS {self.statement[name.start:name.end]}"
        return ""

    def summands(self, items: list[Item]) -> Iterator[Change]:
        """The summands of a sum, each left out. A sign at the beginning, or after another one, is no sum."""
        at = [n for n, item in enumerate(items) if 0 < n < len(items) - 1 and item.says("+", "-")
              and not (isinstance(items[n - 1], Token) and items[n - 1].kind == "sign")]
        if not at:
            return
        yield self.without(items[:at[0]], "0", "sum without")
        for begin, end in zip(at, [*at[1:], len(items)]):
            part = items[begin:end]
            yield Change(f"sum without {self.said(*span(part))}", *span(part), "")

    def terms(self, items: list[Item]) -> Iterator[Change]:
        """The terms of a condition, each left out; and those of a term that is itself a condition in parentheses."""
        if not items:
            return
        parts = split(items, "OR")
        for part in parts:
            if len(parts) > 1:
                yield self.without(part, "0", "without OR")
            for term in split(part, "AND"):
                inner = [item for item in term if not item.says("NOT")]
                if len(parts) == 1 or len(split(part, "AND")) > 1:
                    yield self.without(term, "1")
                if len(inner) == 1 and isinstance(inner[0], Group) and is_condition(inner[0]):
                    yield from self.terms(inner[0].items)

    def one_less(self, items: list[Item], what: str, sign: str = ",") -> Iterator[Change]:
        """A list with commas, or with another sign, each time without one of its members."""
        members = split(items, sign)
        if len(members) < 2 or not all(members):
            return
        for at, member in enumerate(members):
            start = member[0].start if at == 0 else members[at - 1][-1].end
            end = members[1][0].start if at == 0 else member[-1].end
            yield Change(f"{what} {self.said(*span(member))}", start, end, "")

    def orders(self, items: list[Item]) -> Iterator[Change]:
        """Each column of an order, the other way round."""
        for member in split(items, ","):
            if not member:
                continue
            last = member[-1]
            if last.says("DESC", "ASC"):
                yield Change(f"order turned: {self.said(*span(member))}", last.start, last.end,
                             "ASC" if last.says("DESC") else "DESC")
            else:
                yield Change(f"order turned: {self.said(*span(member))}", last.end, last.end, " DESC")

    def arms(self, items: list[Item]) -> Iterator[Change]:
        """The queries of a UNION, each left out."""
        arms: list[list[Item]] = []
        signs: list[tuple[int, int]] = []
        for clause in clauses(items):
            if clause.says("SELECT", "VALUES") and (not arms or len(signs) == len(arms)):
                arms.append([])
            if clause.says("UNION", "EXCEPT", "INTERSECT") and arms:
                assert clause.word is not None
                end = clause.items[0].end if clause.items and clause.items[0].says("ALL") else clause.word.end
                signs.append((clause.word.start, end))
            elif arms and len(arms) > len(signs) and not clause.says("ORDER", "LIMIT", "OFFSET"):
                arms[-1] += [*([clause.word] if clause.word else []), *clause.items]
        if not signs or len(arms) != len(signs) + 1:
            return
        for at, arm in enumerate(arms):
            start, end = span(arm)
            if at == 0:
                end = signs[0][1]
            else:
                start = signs[at - 1][0]
            yield Change(f"without the part {self.said(*span(arm))}", start, end, "")

    # -- what is in parentheses

    def of_group(self, items: list[Item], at: int) -> Iterator[Change]:
        group = items[at]
        if not isinstance(group, Group):
            return
        before = items[at - 1] if at else None
        function = before.text.lower() if isinstance(before, Token) and before.kind == "word" else ""
        members = split(group.items, ",")
        if function == "iif" and len(members) == 3:
            yield from self.terms(members[0])
            for kept, other in ((1, 2), (2, 1)):
                what = f"iif without {self.said(*span(members[other]))}"
                yield self.other(items[at - 1].start, group.end, members[kept], what)
        elif function == "coalesce" and len(members) > 1:
            yield from self.of_coalesce(items[at - 1].start, group, members)
        elif function == "nullif" and len(members) == 2:
            what = f"nullif without {self.said(*span(members[1]))}"
            yield self.other(items[at - 1].start, group.end, members[0], what)
        elif function in EXCHANGED:
            turned = EXCHANGED[function]
            yield Change(f"{turned} of {self.said(group.start, group.end)}", *span([items[at - 1]]), turned)
        elif function == "in" and not group.is_query:
            yield from self.one_less(group.items, f"without, of IN {self.said(group.start, group.end)},")
        yield from self.pairs(items, at)
        yield from self.of_level(group.items)

    def other(self, start: int, end: int, kept: list[Item], what: str) -> Change:
        return Change(what, start, end, f"({self.statement[kept[0].start:kept[-1].end]})")

    def of_coalesce(self, start: int, group: Group, members: list[list[Item]]) -> Iterator[Change]:
        for at, member in enumerate(members):
            rest = [self.statement[one[0].start:one[-1].end] for one in members[:at] + members[at + 1:]]
            text = f"coalesce({', '.join(rest)})" if len(rest) > 1 else f"({rest[0]})"
            yield Change(f"coalesce without {self.said(*span(member))}", start, group.end, text)

    def pairs(self, items: list[Item], at: int) -> Iterator[Change]:
        """Two rows that are compared, each time without one pair."""
        one, other = items[at], items[at + 2] if at + 2 < len(items) else None
        if not (isinstance(one, Group) and isinstance(other, Group) and items[at + 1].says("=", "<>")):
            return
        left, right = split(one.items, ","), split(other.items, ",")
        if one.is_query or other.is_query or len(left) != len(right) or len(left) < 2:
            return
        for pair in range(len(left)):
            rows = ["(" + ", ".join(self.statement[m[0].start:m[-1].end] for n, m in enumerate(row) if n != pair) + ")"
                    for row in (left, right)]
            said = f"{self.said(*span(left[pair]))} {self.said(*span(right[pair]))}"
            yield Change(f"rows without {said}", one.start, other.end,
                         f"{rows[0]} {self.statement[items[at + 1].start:items[at + 1].end]} {rows[1]}")

    # -- comparisons and thresholds

    def of_tokens(self, items: list[Item], parts: list[Clause]) -> Iterator[Change]:
        assignments = {member[1].start for clause in parts if clause.says("SET") for member in split(clause.items, ",")
                       if len(member) > 1}
        for at, item in enumerate(items):
            if not isinstance(item, Token):
                continue
            if item.kind == "parameter" and item.text[1:] in self.thresholds:
                yield from self.moved(item, items, at)
            elif item.kind == "number" and (at and items[at - 1].says(*ORDERED)
                                            or at + 1 < len(items) and items[at + 1].says(*ORDERED)):
                for step in ("- 1", "+ 1"):
                    yield Change(f"{item.text} {step} in {self.around(items, at, True)}", *span([item]),
                                 f"({item.text} {step})")
            elif item.start not in assignments:
                yield from self.turned(items, at)

    def moved(self, item: Token, items: list[Item], at: int) -> Iterator[Change]:
        value = self.thresholds[item.text[1:]]
        steps = ("/ 2", "* 2") if value >= TIME else ("- 0.1", "+ 0.1") if isinstance(value, float) else ("- 1", "+ 1")
        for step in steps:
            what = f"{item.text} {step} in {self.around(items, at, True)}"
            yield Change(what, *span([item]), f"({item.text} {step})")

    def turned(self, items: list[Item], at: int) -> Iterator[Change]:
        item = items[at]
        assert isinstance(item, Token)
        word, after = item.text.upper(), items[at + 1] if at + 1 < len(items) else None
        denied = at > 0 and items[at - 1].says("NOT")
        if item.kind == "text" or item.kind == "name":
            return
        if word in TURNED:
            yield Change(f"turned: {self.around(items, at)}", item.start, item.end, TURNED[word])
        elif word == "IS" and after is not None:
            if after.says("NOT"):
                yield Change(f"turned: {self.around(items, at)}", item.start, after.end, "IS")
            else:
                yield Change(f"turned: {self.around(items, at)}", item.start, item.end, "IS NOT")
        elif word in NEGATED and denied:
            yield Change(f"turned: NOT {self.around(items, at)}", items[at - 1].start, item.end, item.text)
        elif word in NEGATED:
            yield Change(f"turned: {self.around(items, at)}", item.start, item.end, f"NOT {item.text}")

    def around(self, items: list[Item], at: int, whole: bool = False) -> str:
        """A token with the operands on its sides; of one that is in an operand, the whole comparison."""
        bounds = (*BOUNDS, *CLAUSES) if whole else (*BOUNDS, *CLAUSES, *COMPARED)
        first, last = at, at
        while first > 0 and not items[first - 1].says(*bounds):
            first -= 1
        while last + 1 < len(items) and (not items[last + 1].says(*bounds)
                                         or last == at and items[last + 1].says("NOT")):
            last += 1
        return self.said(items[first].start, items[last].end)
