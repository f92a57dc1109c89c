"""The functions in the sources of a crate: how `rt check` names them, where they stand, and their bodies."""

import pathlib
import re
from typing import NamedTuple

ITEM = re.compile(r"^( {0,4})(?:pub(?:\([a-z]+\))? )?(?:(?:const|final|ghost|unsafe) )*"
                  r"(fn|struct|enum|impl|trait|const|static|use|type|mod)\b ?(\w*)", re.MULTILINE)
# The attributes right before an item, and among these the one of a cycle of calls.
ATTRIBUTES = re.compile(r"(?:^ *#\[.*\]\n)+\Z", re.MULTILINE)
CYCLE = re.compile(r"#\[cycle\((\w+)\)\]")


class Function(NamedTuple):
    """A function as `rt check` names it after the crate; where its body is, between its braces; and the cycle of calls
    that it belongs to, with where its attribute for that is."""
    name: str
    body: tuple[int, int]
    cycle: str
    attribute: tuple[int, int]


def modules_of(file: str) -> list[str]:
    return [it for it in file.removeprefix("src/").removesuffix(".rt").split("/") if it not in ("lib", "main", "mod")]


def homes_of(folder: pathlib.Path) -> dict[str, list[str]]:
    """For each type of a crate the modules that it is in."""
    homes: dict[str, list[str]] = {}
    for path in sorted((folder / "src").rglob("*.rt")):
        for it in ITEM.finditer(path.read_text("utf-8")):
            if it[2] in ("struct", "enum") and not it[1]:
                homes.setdefault(it[3], modules_of(path.relative_to(folder).as_posix()))
    return homes


def closed_at(text: str, start: int) -> int:
    """Where the generics that begin at `start` are closed; `start` itself if none begin there."""
    depth = 0
    for at in range(start, len(text)):
        depth += (text[at] == "<") - (text[at] == ">" and text[at - 1] != "-")
        if depth == 0:
            return at + (at > start)
    return start


def words_of(text: str) -> list[str]:
    """The names in a type, with `Ref` for each `&`, without lifetimes and without paths before names."""
    return re.findall(r"(?<!['\w])\w+(?!\w|::)", text.replace("&", " Ref "))


def owner_of(head: str) -> tuple[str, str]:
    """From the head of an impl or a trait: the name that `rt` gives it; and for an impl without a trait the type."""
    _, word, rest = re.split(r"^(?:pub(?:\([a-z]+\))? )?(impl|trait)\b *", head, maxsplit=1)
    if word == "trait":
        return re.split(r"\W", rest)[0], ""
    end = closed_at(rest, 0)
    parameters = set(re.findall(r"(?:^<|, *)(?:const )?(\w+)", rest[:end]))
    of, _, type_name = re.split(r"\bwhere\b", rest[end:])[0].strip().rpartition(" for ")
    if of:
        named = [it for it in words_of(type_name) + words_of(of) if it not in parameters]
        return "".join(it[:1].upper() + it[1:] for it in named), ""
    own, *arguments = words_of(type_name)
    return (own if set(arguments) <= parameters else "+".join([own, *arguments])), own


def function_at(file: str, text: str, end: int, homes: dict[str, list[str]]) -> set[str]:
    """The function that the text before `end` belongs to, as `rt check` names it after the crate; or none."""
    before = [it for it in ITEM.finditer(text) if it.start() < end]
    if not before or before[-1][2] != "fn":
        return set()
    path, name = modules_of(file), before[-1][3]
    owner = [it for it in before if it[2] in ("impl", "trait") and not it[1]] if before[-1][1] else []
    if owner:
        named, own = owner_of(text[owner[-1].start():text.index("{", owner[-1].start())])
        path = [*homes.get(own, path), named]
    return {"::".join([*path, name])}


def lines_of(function: str, texts: dict[str, str], homes: dict[str, list[str]]) -> tuple[str, int, int]:
    """The file of an edited function, and its first and its last line there, with its attributes."""
    for file, text in texts.items():
        starts = [*ITEM.finditer(text)]
        for number, it in enumerate(starts):
            if it[2] == "fn" and function_at(file, text, it.end(), homes) == {function}:
                behind = starts[number + 1].start() if number + 1 < len(starts) else len(text)
                # What comes before the next item, for example its comment, belongs to that item.
                close = re.compile(rf"^{it[1]}(?:\{{?\}}|\S.*;)$", re.MULTILINE).search(text, it.end(), behind)
                end = close.end() if close else behind
                before = ATTRIBUTES.search(text, 0, it.start())
                start = before.start() if before else it.start()
                return file, text.count("\n", 0, start) + 1, text.count("\n", 0, end) + 1
    return "", 0, 0


def body_of(text: str, item: re.Match[str]) -> tuple[int, int] | None:
    """Where the body of a function is, between its braces; None if it has none. The text is as `rt fmt` writes it."""
    own, following = item[1], ITEM.search(text, item.end())
    head = re.compile(rf"^{own}(?! )[^\n]*?\{{(\}}?)$", re.MULTILINE)
    begin = head.search(text, item.start(), following.start() if following else len(text))
    if not begin:
        return None
    if begin[1]:
        return begin.end() - 1, begin.end() - 1
    close = re.compile(rf"^{own}\}}$", re.MULTILINE).search(text, begin.end())
    return (begin.end(), close.start()) if close else None


def functions_in(file: str, text: str, homes: dict[str, list[str]]) -> list[Function]:
    """The functions of a file that have a body, but for those in macros."""
    found = []
    for item in ITEM.finditer(text):
        body = body_of(text, item) if item[2] == "fn" else None
        if body:
            before = ATTRIBUTES.search(text, 0, item.start())
            cycle = CYCLE.search(text, before.start(), before.end()) if before else None
            found.append(Function(*function_at(file, text, item.end(), homes), body, cycle[1] if cycle else "",
                                  cycle.span() if cycle else (0, 0)))
    return found
