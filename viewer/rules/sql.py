"""SQL as SQLite reads it, as far as wrong forms of a statement take it: tokens, what stands in parentheses or between
CASE and END, and the clauses of a level."""

import re
from typing import Iterator, NamedTuple, Union

TOKEN = re.compile(r"""
    (?P<space>\s+|--[^\n]*|/\*.*?\*/)
  | (?P<text>'(?:[^']|'')*')
  | (?P<name>"(?:[^"]|"")*")
  | (?P<parameter>:\w+)
  | (?P<number>0[xX][0-9a-fA-F]+|\d+(?:\.\d*)?(?:[eE][-+]?\d+)?|\.\d+)
  | (?P<word>[A-Za-z_]\w*)
  | (?P<sign><>|<=|>=|!=|==|\|\||<<|>>|->>|->|[-+*/%<>=(),;.&|~])
""", re.VERBOSE | re.DOTALL)


class Token(NamedTuple):
    """A token of a statement, with its place there."""
    kind: str
    text: str
    start: int
    end: int

    def says(self, *words: str) -> bool:
        """Whether it is one of these words or signs. Words are in capitals; a text is never one."""
        return self.kind in ("word", "sign") and self.text.upper() in words


class Group(NamedTuple):
    """What stands in parentheses, or between CASE and END."""
    opener: Token
    items: list["Item"]
    closer: Token

    @property
    def start(self) -> int:
        return self.opener.start

    @property
    def end(self) -> int:
        return self.closer.end

    def says(self, *_: str) -> bool:
        return False

    @property
    def is_query(self) -> bool:
        return bool(self.items) and self.items[0].says("SELECT", "WITH", "VALUES")

    @property
    def is_case(self) -> bool:
        return self.opener.says("CASE")


Item = Union[Token, Group]


def tokens_of(statement: str) -> Iterator[Token]:
    """The tokens, without space and comments."""
    at = 0
    while at < len(statement):
        found = TOKEN.match(statement, at)
        if found is None:
            raise ValueError(f"no token of SQL: {statement[at:at + 40]!r}")
        if found.lastgroup != "space":
            yield Token(str(found.lastgroup), found[0], at, found.end())
        at = found.end()


def items_of(statement: str) -> list[Item]:
    """The statement as its tokens and groups. An END without a CASE is a name, such as that of a column."""
    stack: list[tuple[Token, list[Item]]] = []
    found: list[Item] = []
    for token in tokens_of(statement):
        if token.says("(", "CASE"):
            stack.append((token, found))
            found = []
        elif token.says(")") or token.says("END") and stack and stack[-1][0].says("CASE"):
            if not stack or stack[-1][0].says("(") != token.says(")"):
                raise ValueError(f"nothing opens what ends at {token.start}: {statement[:60]!r}")
            opener, outer = stack.pop()
            outer.append(Group(opener, found, token))
            found = outer
        else:
            found.append(token)
    if stack:
        raise ValueError(f"nothing closes what begins at {stack[-1][0].start}: {statement[:60]!r}")
    return found


def norm(statement: str) -> str:
    """The statement without comments, and with one space between tokens: the same however it is written."""
    return " ".join(token.text for token in tokens_of(statement))


# ---- clauses

# The words that begin a clause. Of `LEFT JOIN`, `GROUP BY`, `UNION ALL` the first one does.
CLAUSES = ("SELECT", "FROM", "WHERE", "GROUP", "PARTITION", "HAVING", "ORDER", "LIMIT", "OFFSET", "UNION", "EXCEPT",
           "INTERSECT", "SET", "VALUES", "ON", "USING", "JOIN", "LEFT", "CROSS", "INNER", "WITH", "WHEN", "THEN",
           "ELSE", "UPDATE", "INSERT", "DELETE", "CREATE", "RANGE", "ROWS")


class Clause(NamedTuple):
    """A clause of a level: the word that begins it, if there is one, and what follows."""
    word: Token | None
    items: list[Item]

    def says(self, *words: str) -> bool:
        return self.word is not None and self.word.says(*words)

    @property
    def start(self) -> int:
        return (self.word or self.items[0]).start


def clauses(items: list[Item]) -> list[Clause]:
    """The clauses of a level. `DELETE FROM x` is two."""
    found = [Clause(None, [])]
    for item in items:
        if isinstance(item, Token) and item.kind == "word" and item.says(*CLAUSES):
            found.append(Clause(item, []))
        elif not item.says(";"):
            found[-1].items.append(item)
    return [clause for clause in found if clause.word or clause.items]


def split(items: list[Item], *signs: str) -> list[list[Item]]:
    """What stands between these words or signs. The AND of a BETWEEN is none."""
    found: list[list[Item]] = [[]]
    between = False
    for item in items:
        if item.says(*signs) and not (between and item.says("AND")):
            found.append([])
        else:
            found[-1].append(item)
            between = item.says("BETWEEN") or between and not item.says("AND")
    return found


def span(items: list[Item]) -> tuple[int, int]:
    return items[0].start, items[-1].end
