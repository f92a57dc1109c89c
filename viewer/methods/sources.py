"""What the readers of interface sources share: tokens with their lines, expressions, and what is wrong."""

import re
from typing import Iterator, NamedTuple, NoReturn

# How deep declarations, types and expressions may nest, and how long a name may be. Real sources nest under ten deep.
DEEPEST, LONGEST = 50, 256


class Wrong(Exception):
    """A source that can't be read: its file, the line, and why."""

    def __init__(self, file: str, line: int, why: str) -> None:
        super().__init__(f"{file}:{line}: {why}")


class Method(NamedTuple):
    """A method of an interface: its code, its name, and its file and line, or `-` if it is in no source."""
    code: int
    name: str
    source: str


class Interface(NamedTuple):
    """An interface: the name that its calls carry as a token, and its methods."""
    name: str
    methods: list[Method]


class Token(NamedTuple):
    """A token: name, number, string, sign or end; its text, and its line."""
    sort: str
    text: str
    line: int

    def shown(self) -> str:
        """The token in a message, where a long one is cut."""
        return "the end of the file" if self.sort == "end" else self.text[:40]


SIGNS = r"&&|\|\||<<|[<>=!]=|[-+*/%&|^~!<>=(){}\[\];,.@:?#]"
NUMBER = r"0[xX][0-9a-fA-F]+\w*|(?:[0-9]+\.?[0-9]*|\.[0-9]+)(?:[eE][-+]?[0-9]+)?\w*"
BEFORE = ("+", "-", "!", "~")
BETWEEN = frozenset("+ - * / % & | ^ < > && || << <= >= == != ?".split())


class Reader:
    """Takes the tokens of a source one by one. `space` is what may lie between two of them: spaces, a comment to the
    end of the line, or the beginning of a comment of several lines. `no_string` says what else strings may not be."""

    words: re.Pattern[str]
    space: re.Pattern[str]
    no_string: str

    def __init__(self, file: str, text: str) -> None:
        self.file, self.text = file, text
        self.at, self.line, self.depth = 0, 1, 0
        self.next = self.token()

    def wrong(self, why: str, line: int | None = None) -> NoReturn:
        raise Wrong(self.file, self.next.line if line is None else line, why)

    def source(self, line: int) -> str:
        return f"{self.file}:{line}"

    # ---- tokens

    def comment_end(self) -> int:
        """Where the comment that begins here ends."""
        end = self.text.find("*/", self.at + 2)
        if end < 0:
            raise Wrong(self.file, self.line, "a comment that does not end")
        return end + 2

    def pass_to(self, end: int) -> None:
        self.line += self.text.count("\n", self.at, end)
        self.at = end

    def token(self) -> Token:
        """The next token. What lies between tokens is passed."""
        while found := self.space.match(self.text, self.at):
            self.pass_to(self.comment_end() if found[0] == "/*" else found.end())
        if self.at == len(self.text):
            return Token("end", "", self.line)
        found = self.words.match(self.text, self.at)
        if not found:
            raise Wrong(self.file, self.line, self.no_token(self.text[self.at]))
        made = Token(found.lastgroup or "", found[0], self.line)
        if made.sort == "name" and len(made.text) > LONGEST:
            raise Wrong(self.file, self.line, f"a name of {len(made.text)} characters")
        self.pass_to(found.end())
        return made

    def no_token(self, sign: str) -> str:
        if sign in "\"'":
            return f"a string that does not end on its line, or {self.no_string}"
        return f"unexpected {sign}" if sign.isascii() and sign.isprintable() else f"unexpected U+{ord(sign):04X}"

    def take(self) -> Token:
        taken, self.next = self.next, self.token()
        return taken

    def takes(self, *texts: str) -> bool:
        """Whether the next token is one of these; takes it if so."""
        if self.next.text not in texts:
            return False
        self.take()
        return True

    def must(self, text: str) -> None:
        if not self.takes(text):
            self.wrong(f"expected {text} and not {self.next.shown()}")

    def must_be(self, sort: str) -> Token:
        if self.next.sort != sort:
            self.wrong(f"expected a {sort} and not {self.next.shown()}")
        return self.take()

    # ---- what nests

    def deeper(self) -> None:
        self.depth += 1
        if self.depth > DEEPEST:
            self.wrong(f"more than {DEEPEST} levels of nesting")

    def listed(self, end: str) -> Iterator[None]:
        """The items of a list with commas, up to its end. The caller reads each item. In braces, none need follow the
        last comma."""
        if self.takes(end):
            return
        self.deeper()
        yield
        while self.takes(",") and not (end == self.next.text == "}"):
            yield
        self.depth -= 1
        self.must(end)

    def expression(self) -> None:
        """Passes an expression, of any types. What the operators bind does not matter here."""
        self.operand()
        while self.next.sort == "sign" and self.next.text in BETWEEN:
            sign = self.take().text
            if sign == ">":
                self.takes(">")  # a shift: the signs of `List<List<T>>` come one by one
            self.operand()
            if sign == "?":
                self.must(":")
                self.expression_within()

    def expression_within(self) -> None:
        self.deeper()
        self.expression()
        self.depth -= 1

    def operand(self) -> None:
        while self.takes(*BEFORE):
            pass
        if self.takes("("):
            self.expression_within()
            self.must(")")
        elif self.takes("{"):
            for _ in self.listed("}"):
                self.expression()
        elif self.next.sort in ("number", "string"):
            self.take()
        else:
            self.constant()

    def constant(self) -> None:
        """Passes the name of a constant."""
        raise NotImplementedError


def words_of(name: str, string: str) -> re.Pattern[str]:
    """The tokens of a language with these forms of names and strings."""
    return re.compile(f"(?P<string>{string})|(?P<name>{name})|(?P<number>{NUMBER})|(?P<sign>{SIGNS})", re.ASCII)
