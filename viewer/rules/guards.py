"""What a statement takes rows of. Where nothing of that is there, the statement does nothing, as for a capture without
freeze notifications, and need not be compiled; nor does a form of it that checks try."""

from typing import Callable, Iterator, Mapping, NamedTuple, Union

from viewer.rules.sql import Clause, Group, Item, Token, clauses, items_of, split, tokens_of

AGGREGATES = ("COUNT", "SUM", "MIN", "MAX", "AVG", "TOTAL", "GROUP_CONCAT", "JSON_GROUP_ARRAY", "JSON_GROUP_OBJECT")
# Of two values or more they are the least and the greatest one of a row.
OF_A_ROW = ("MIN", "MAX")
# By these a term says which findings it takes.
OF_FINDING = ("section", "rule", "what")


class Guard(NamedTuple):
    """A table, and a condition of its rows: without such a row nothing is done. It stands for a stretch of the
    statement: a form that changes this may do something."""
    table: str
    condition: str = ""
    start: int = 0
    end: int = 0

    @property
    def query(self) -> str:
        return f"SELECT 1 FROM {self.table}{self.condition} LIMIT 1"

    def is_left_by(self, start: int, end: int) -> bool:
        return end <= self.start or self.end <= start


# The parts of a UNION, or a query that is one, each with its guards: tables, and queries from which it takes rows.
Parts = list[list[Union[Guard, "Parts"]]]
Views = Mapping[str, Parts]


def finds_nothing(parts: Parts, is_empty: Callable[[Guard], bool]) -> bool:
    """Whether each part has a guard without rows."""
    return bool(parts) and all(
        any(is_empty(one) if isinstance(one, Guard) else finds_nothing(one, is_empty) for one in part)
        for part in parts)


def guards_of(statement: str, views: Views = {}) -> Parts:
    """The guards of a statement, or of the query of a view; `views` has those of views before it."""
    return Reading(statement).parts(items_of(statement), views)


def adds_of(statement: str) -> bool:
    """Whether a statement adds rows, and leaves those that are there."""
    first, *tokens = tokens_of(statement)
    return first.says("CREATE") or first.says("INSERT") and tokens[0].says("INTO")


def columns_set(statement: str) -> tuple[str, ...]:
    """The columns that an UPDATE sets; of another statement none."""
    members = [member for clause in clauses(items_of(statement)) if clause.says("SET")
               for member in split(clause.items, ",")]
    return tuple(token.text for member in members
                 for token in (member[0].items if isinstance(member[0], Group) else member[:1])
                 if isinstance(token, Token) and token.kind == "word")


class Reading(NamedTuple):
    """A statement that is read."""
    text: str

    def parts(self, items: list[Item], views: Views, within: Group | None = None, name: str = "") -> Parts:
        """The guards of a query, which WITH may give this name. A part that takes rows of the query itself has none
        before another part has some, and is left out."""
        every, known = clauses(items), dict(views)
        known[name] = [[]]
        for called, query in (one for clause in every if clause.says("WITH") for one in named_by(clause)):
            known[called] = self.parts(query.items, known, query, called)
        return [self.guards(part, known, within) for part in parts_of(every)
                if name not in (table for table, _ in tables_of(part))]

    def guards(self, part: list[Clause], views: Views, within: Group | None) -> list[Union[Guard, Parts]]:
        """The guards of a part."""
        if any(has_aggregate(one.items) for one in part) and not any(one.says("GROUP") for one in part):
            return []  # it has a row whatever is there
        found: list[Union[Guard, Parts]] = []
        start, end = (within.start, within.end) if within else (0, 0)
        aliases = set()
        for table, alias in tables_of(part):
            found.append(views[table] if table in views else Guard(table, "", start, end))
            aliases |= {alias} if table == "finding" else set()
        found += [self.parts(one.items, views, one) for one in queries_of(part)]
        for term in terms_of(part):
            said = term_of_finding(self.text, term, aliases)
            if said:
                found.append(Guard("finding", f" WHERE {said}", term[0].start, term[-1].end))
        return found


def parts_of(every: list[Clause]) -> Iterator[list[Clause]]:
    """The clauses of each part. What comes before the first SELECT belongs to none, but what an UPDATE changes does."""
    part: list[Clause] = []
    for clause in every:
        if clause.says("SELECT", "VALUES") and any(one.says("SELECT", "VALUES") for one in part):
            yield part
            part = []
        if part or clause.says("SELECT", "VALUES", "UPDATE", "DELETE"):
            part.append(clause)
    yield part


def named_by(clause: Clause) -> Iterator[tuple[str, Group]]:
    """The queries of a WITH, by their names."""
    for member in split(clause.items, ","):
        items = [item for item in member if not item.says("RECURSIVE")]
        if items and isinstance(items[0], Token) and isinstance(items[-1], Group) and items[-1].is_query:
            yield items[0].text, items[-1]


def has_aggregate(items: list[Item]) -> bool:
    """Whether a value is of many rows. Over a window a function has a value for each row."""
    for at, item in enumerate(items):
        if isinstance(item, Group):
            if not item.is_query and has_aggregate(item.items):
                return True
        elif item.says(*AGGREGATES) and items[at + 1:] and isinstance(items[at + 1], Group):
            of, after = items[at + 1], items[at + 2:]
            assert isinstance(of, Group)
            if after and after[0].says("FILTER"):
                after = after[2:]
            is_of_a_row = item.says(*OF_A_ROW) and split(of.items, ",")[1:]
            if not is_of_a_row and not (after and after[0].says("OVER")):
                return True
    return False


def members_of(part: list[Clause]) -> Iterator[list[Item]]:
    """What is joined so that without a row of it there is none."""
    for before, clause in zip([None, *part], part):
        members = split(clause.items, ",")
        if clause.says("UPDATE", "FROM"):
            pass
        elif clause.says("JOIN") and before is not None and not before.says("LEFT"):
            members = members[:1]
        elif clause.says("ON", "USING"):
            members = members[1:]
        else:
            continue
        for member in members:
            window = next((at for at, item in enumerate(member) if item.says("WINDOW")), len(member))
            yield member[:window]


def tables_of(part: list[Clause]) -> Iterator[tuple[str, str]]:
    """The tables that are joined so, with the names that they have here."""
    for member in members_of(part):
        if member and isinstance(member[0], Token) and member[0].kind == "word" and not any(
                item.says(".") or isinstance(item, Group) for item in member):
            yield member[0].text, member[-1].text  # type: ignore[union-attr]


def queries_of(part: list[Clause]) -> Iterator[Group]:
    """The queries that are joined so, and those of which a term wants a row."""
    for member in members_of(part):
        if member and isinstance(member[0], Group) and member[0].is_query:
            yield member[0]
    for term in terms_of(part):
        if isinstance(term[-1], Group) and term[-1].is_query and wants_row(term[:-1]):
            yield term[-1]


def wants_row(before: list[Item]) -> bool:
    """Whether a term that says this before a query wants a row of it: EXISTS, or IN after a column or some."""
    if len(before) == 1:
        return before[0].says("EXISTS")
    return bool(before) and before[-1].says("IN") and all(
        item.says(".", "+") or isinstance(item, Group) or item.kind == "word" and not item.says("NOT")
        for item in before[:-1])


def terms_of(part: list[Clause]) -> Iterator[list[Item]]:
    """The terms of which each must hold."""
    for clause in part:
        if clause.says("WHERE") and not split(clause.items, "OR")[1:]:
            yield from filter(None, split(clause.items, "AND"))


def term_of_finding(statement: str, term: list[Item], aliases: set[str]) -> str | None:
    """What a term says of a finding alone, as `section = 'calls'`."""
    items = term[1:] if term and term[0].says("+") else term
    if len(items) == 5 and items[1].says("."):
        if not isinstance(items[0], Token) or items[0].text not in aliases:
            return None
        items = items[2:]
    if not aliases or len(items) != 3 or not isinstance(items[0], Token) or items[0].text not in OF_FINDING:
        return None
    is_text = isinstance(items[2], Token) and items[2].kind == "text" and items[1].says("=")
    is_list = isinstance(items[2], Group) and items[1].says("IN") and all(
        isinstance(item, Token) and (item.kind == "text" or item.says(",")) for item in items[2].items)
    return statement[items[0].start:items[-1].end] if is_text or is_list else None
