"""Reads interfaces that are written in C++ by hand, without AIDL: the macro IMPLEMENT_META_INTERFACE says what calls
name them, and an enum that begins with IBinder::FIRST_CALL_TRANSACTION has the codes of their methods.

C++ is not parsed: an interface counts only if a few forms are there that leave no doubt, and is left out otherwise. The
enum of ICounter must be in the class ICounter or BnCounter, or be the one of a source that implements ICounter and no
other interface. Its codes are not certain if the preprocessor may leave out enumerators, or one of them is given a
value of another form."""

import itertools
import re
from collections import defaultdict
from typing import Iterable, Iterator, NamedTuple

from viewer.methods.sources import LONGEST, Interface, Method

FIRST = 1  # IBinder::FIRST_CALL_TRANSACTION
LAST = 0x00ffffff

# How many words the head of a class, an enum or a macro may have.
LONGEST_HEAD = 64

# Enumerators that end a list.
NO_METHODS = ("Last", "LAST")

# What a file must have to be looked at.
MARK = b"META_INTERFACE"

WORDS = re.compile(r"""
    (?P<space>\s+|//[^\n]*|/\*(?:.*?\*/|.*))
  | (?P<directive>^[ \t]*\#(?:[^\n\\]|\\\n|\\.)*)
  | (?P<raw>(?:u8|[uUL])?R"(?P<fence>[^()\\\s]{0,16})\((?:.*?\)(?P=fence)"|.*))
  | (?P<string>"(?:[^"\\\n]|\\.)*"|'(?:[^'\\\n]|\\.)*')
  | (?P<name>[A-Za-z_]\w*)
  | (?P<number>[0-9](?:[\w.']|[eEpP][-+])*)
  | (?P<sign>::|.)""", re.VERBOSE | re.DOTALL | re.MULTILINE | re.ASCII)

IMPLEMENTS = re.compile(
    "(?:DO_NOT_DIRECTLY_USE_ME_)?IMPLEMENT_META_(?:NESTED_)?INTERFACE|IMPLEMENT_HYBRID_META_INTERFACE")
DESCRIPTOR = re.compile(r"[A-Za-z_][\w$]*(?:\.[\w$]+)*", re.ASCII)


class Word(NamedTuple):
    """A word of a source: name, number, string, sign or directive; its text, and its line."""
    sort: str
    text: str
    line: int


class Codes(NamedTuple):
    """An enum whose first enumerator is FIRST_CALL_TRANSACTION: the file, the classes around it, and its enumerators.
    Those are None if not all of them can be read."""
    file: str
    line: int
    around: tuple[str, ...]
    methods: list[Method] | None


class Named(NamedTuple):
    """What IMPLEMENT_META_INTERFACE says: the name of the class without its first I, and that of the interface."""
    file: str
    line: int
    short: str
    name: str


def words_of(text: str) -> list[Word]:
    """The words of a source. A comment that does not end goes to the end of the source."""
    line, found = 1, []
    for match in WORDS.finditer(text):
        if match.lastgroup != "space":
            found.append(Word("string" if match.lastgroup == "raw" else match.lastgroup or "", match[0], line))
        line += match[0].count("\n")
    return found


class Source:
    """The classes, enums and macros of a file."""

    def __init__(self, file: str, text: str) -> None:
        self.file, self.words, self.at = file, words_of(text), 0
        self.around: list[str] = []  # the name of each brace that is open: a class, or nothing
        self.codes: list[Codes] = []
        self.named: list[Named] = []
        self.is_whole = True
        while self.at < len(self.words):
            self.step()
        # Of a source that is cut, or that the preprocessor puts together, no class is certain.
        if self.around or not self.is_whole:
            self.codes = [codes._replace(methods=None) for codes in self.codes]

    def classes(self) -> tuple[str, ...]:
        return tuple(name for name in self.around if name)

    def step(self) -> None:
        word = self.words[self.at]
        self.at += 1
        if word.text in ("class", "struct") and (name := self.class_name()):
            self.around.append(name)
        elif word.text == "enum":
            self.enum(word.line)
        elif word.text == "{":
            self.around.append("")
        elif word.text == "}":
            self.is_whole = self.is_whole and bool(self.around)
            self.around = self.around[:-1]
        elif word.sort == "name" and IMPLEMENTS.fullmatch(word.text):
            self.implements(word.line)

    def class_name(self) -> str | None:
        """The name of a class whose body begins here; passes the body's brace. None of a class without one here."""
        at, name = self.at, ""
        for word in self.words[at:at + LONGEST_HEAD]:
            at += 1
            if word.text in (";", "(", ")", ">", "="):
                return None
            if word.text == "{":
                self.at = at
                return name or None
            if word.text == ":":
                break
            if word.sort == "name" and word.text != "final":
                name = word.text
        for word in self.words[at:at + LONGEST_HEAD]:
            at += 1
            if word.text in (";", ")"):
                return None
            if word.text == "{":
                self.at = at
                return name or None
        return None

    def implements(self, line: int) -> None:
        """Takes the arguments of the macro: a name, and strings. If they are others, the interface has no name."""
        words = self.words[self.at:self.at + LONGEST_HEAD]
        if len(words) < 4 or words[0].text != "(" or words[1].sort != "name" or words[2].text != ",":
            return
        strings = [word.text for word in itertools.takewhile(lambda word: word.sort == "string", words[3:])]
        name = "".join(text[1:-1] for text in strings)
        is_name = words[3 + len(strings):][:1] and words[3 + len(strings)].text in (",", ")") and len(name) <= LONGEST \
            and all(text.startswith('"') for text in strings) and DESCRIPTOR.fullmatch(name)
        self.named.append(Named(self.file, line, words[1].text, name if is_name else ""))

    def enum(self, line: int) -> None:
        """Takes an enum if it is one of codes. What is no enum of codes is passed word by word."""
        head = [word.text for word in self.words[self.at:self.at + LONGEST_HEAD]]
        if "{" not in head or {";", "}", "("} & set(head[:head.index("{")]):
            return
        body = self.at + head.index("{")
        end = body + 1
        while end < len(self.words) and self.words[end].text not in ("{", "}", "enum"):
            end += 1
        if end == len(self.words) or self.words[end].text != "}":
            return
        inside = self.words[body + 1:end]
        if any(word.text == "FIRST_CALL_TRANSACTION" for word in inside):
            self.codes.append(Codes(self.file, line, self.classes(), methods_of(self.file, inside)))
        self.at = end + 1


def methods_of(file: str, words: list[Word]) -> list[Method] | None:
    """The enumerators of an enum, by their codes. One that means an earlier one is no method. None if not all of them
    can be read, as where the preprocessor decides, or the first one is not FIRST_CALL_TRANSACTION."""
    found: dict[str, Method] = {}
    taken: set[int] = set()
    code = None
    for item in items_of(words):
        name, value = item[0], [word.text for word in item[1:]]
        if any(word.sort == "directive" for word in item) or name.sort != "name" or name.text in found:
            return None
        if len(value) == 2 and value[0] == "=" and value[1] in found:
            code = found[value[1]].code
            continue
        if value:
            code = code_of(value)
        elif code is not None:
            code += 1
        if code is None or not FIRST <= code <= LAST or len(name.text) > LONGEST \
                or code in taken or not found and code != FIRST:
            return None
        taken.add(code)
        found[name.text] = Method(code, name.text, f"{file}:{name.line}")
    return [method for method in found.values() if method.name not in NO_METHODS]


def items_of(words: list[Word]) -> Iterator[list[Word]]:
    """The items of a list with commas."""
    item: list[Word] = []
    for word in words:
        if word.text == "," and item:
            yield item
            item = []
        else:
            item.append(word)
    if item:
        yield item


def code_of(value: list[str]) -> int | None:
    """The code that an enumerator is given: FIRST_CALL_TRANSACTION with a number added, or without."""
    match value:
        case ["=", *names, "FIRST_CALL_TRANSACTION"] if is_scope(names):
            return FIRST
        case ["=", *names, "FIRST_CALL_TRANSACTION", "+", number] if is_scope(names) and number.isdecimal():
            return FIRST + int(number) if len(number) < 9 else None
    return None


def is_scope(names: list[str]) -> bool:
    """Whether this stands before a name of libbinder: `IBinder::`, `android::IBinder::` or `::android::IBinder::`."""
    return "".join(names) in ("", "IBinder::", "android::IBinder::", "::android::IBinder::")


class Every:
    """What all sources have: the names of the interfaces by their classes, and the enums of codes by the class around
    each, with their place in the order of all."""

    def __init__(self, sources: list[Source]) -> None:
        self.names: dict[str, set[str]] = defaultdict(set)
        self.within: dict[str, list[tuple[int, Codes]]] = defaultdict(list)
        for named in (named for one in sources for named in one.named):
            self.names[named.short].add(named.name)
        for nth, codes in enumerate(codes for one in sources for codes in one.codes):
            if codes.around:
                self.within[codes.around[-1]].append((nth, codes))

    def codes_in(self, *classes: str) -> list[Codes]:
        """The first two enums of codes in these classes."""
        found = [one for name in classes for one in self.within.get(name, [])[:2]]
        return [codes for _, codes in sorted(found, key=lambda one: one[0])[:2]]


def interfaces_of(sources: Iterable[Source]) -> tuple[list[Interface], list[str]]:
    """The interfaces whose codes are certain, and a line for each that is left out."""
    all_sources = list(sources)
    every = Every(all_sources)
    found, left_out = [], []
    for source in all_sources:
        for named in source.named:
            answer = codes_of(named, source, every)
            if isinstance(answer, str):
                left_out.append(f"{named.file}:{named.line}: {named.name or 'I' + named.short} {answer}")
            else:
                found.append(Interface(named.name, answer))
    return found, left_out


def codes_of(named: Named, source: Source, every: Every) -> list[Method] | str:
    """The methods of an interface, or why they are not certain. An enum belongs to it if it is in the class of the
    interface, or in that of its objects, or else if it is the one of the source that implements it, and nothing
    else."""
    if not named.name:
        return "has a name that is no string"
    if len(every.names[named.short]) > 1:
        return f"is not the only interface of a class I{named.short}"
    beside = source.codes if len(source.named) == 1 else []
    codes = every.codes_in("I" + named.short, "Bn" + named.short) or [one for one in beside if not one.around]
    if not codes:
        return "has no enum of codes that is certainly its own"
    if len(codes) > 1:
        return f"has enums of codes at {codes[0].file}:{codes[0].line} and {codes[1].file}:{codes[1].line}"
    if codes[0].methods is None:
        return f"has an enum at {codes[0].file}:{codes[0].line} whose codes can't be read for certain"
    return codes[0].methods
