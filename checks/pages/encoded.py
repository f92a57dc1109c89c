"""Checks that all Python of the repository names the encoding of each text that it reads or writes.

    checks/run encoded

Without one, Python takes the encoding of the locale: then what a program reads, and whether it fails, depends on who
calls it. What must hold, by the syntax of each file:

- No call has `text=True` or `universal_newlines=True`, by which subprocess gives texts: `encoding=` does so too.
- What opens a file as text names its encoding: `open`, `fdopen`, `read_text`, `write_text`, `TextIOWrapper`, temporary
  files, and files of gzip, bz2 and lzma. A mode that is not written down counts as one of text.
- Nothing calls `popen`, `getoutput` or `getstatusoutput`, which take no encoding.
- The check finds each of these where it is, and nothing else, in two texts of its own.
"""

import argparse
import ast
import pathlib
from typing import Iterable, Iterator

from checks.kit.checking import Fail, check, compare
from checks.kit.programs import ROOT
from checks.pages.sources import paths

# What opens a file: the position of its mode, and the mode without one.
MODES = {"open": (1, "r"), "fdopen": (1, "r"), "TemporaryFile": (0, "w+b"), "NamedTemporaryFile": (0, "w+b"),
         "SpooledTemporaryFile": (1, "w+b")}
# The modules whose `open` takes the name of a file, as `open` itself; those that mean bytes unless the mode has a `t`;
# and those whose `open` is no text. What else has an `open` is a path, whose mode comes first.
AS_OPEN, PACKED, NO_TEXT = ("io", "codecs"), ("gzip", "bz2", "lzma"), ("os", "tarfile", "zipfile")
# What reads or writes a text, with the position of the encoding.
TEXTS = {"read_text": 0, "write_text": 1, "TextIOWrapper": 1}
# What takes no encoding.
NEVER = ("popen", "getoutput", "getstatusoutput")

WRONG = """
subprocess.run(words, text=True)
answer(words, timeout=9, universal_newlines=True)
open(name)
open(name, "w")
open(name, how)
io.open(name, mode="a+")
os.fdopen(file, "w")
path.open()
(folder / name).open("x")
path.read_text()
path.read_text(errors="replace")
path.write_text(text)
io.TextIOWrapper(raw)
tempfile.TemporaryFile("w+")
gzip.open(name, "rt")
os.popen(line)
"""
RIGHT = """
subprocess.run(words, encoding="utf-8")
ask(program, text=words)
open(name, "rb")
open(name, encoding="ascii")
open(name, "w", -1, "utf-8")
os.open(name, os.O_RDWR)
os.fdopen(file, "wb", buffering=0)
path.open("rb")
path.read_text("utf-8")
path.write_text(text, encoding="utf-8")
path.read_bytes().decode(errors="replace")
tempfile.TemporaryFile()
gzip.open(name)
tarfile.open(name, "w")
"""


def word_of(call: ast.Call, name: str, at: int) -> ast.expr | None:
    """A word of a call, by its name or its position."""
    named = next((word.value for word in call.keywords if word.arg == name), None)
    return named if named is not None else call.args[at] if len(call.args) > at else None


def opens_text(call: ast.Call, name: str, of: str | None) -> bool:
    """Whether a call that may open a file opens it as text. `of`: the module or the object that has the function."""
    if name == "open" and of in NO_TEXT:
        return False
    at, mode = MODES[name]
    if name == "open" and of not in (None, *AS_OPEN, *PACKED):
        at = 0
    word = word_of(call, "mode", at)
    if word is not None:
        mode = word.value if isinstance(word, ast.Constant) else "r"
    return "t" in mode if of in PACKED else "b" not in mode


def lacks_encoding(call: ast.Call) -> bool:
    """Whether a call takes the encoding of the locale."""
    called = call.func
    name = called.attr if isinstance(called, ast.Attribute) else called.id if isinstance(called, ast.Name) else ""
    of = ast.unparse(called.value) if isinstance(called, ast.Attribute) else None
    if name in NEVER:
        return True
    if name in TEXTS:
        return word_of(call, "encoding", TEXTS[name]) is None
    if name in MODES:
        return opens_text(call, name, of) and word_of(call, "encoding", 3) is None
    return any(word.arg in ("text", "universal_newlines") and isinstance(word.value, ast.Constant) and word.value.value
               for word in call.keywords)


def lines_without(source: str) -> list[int]:
    """The lines of the calls that take the encoding of the locale."""
    return sorted(call.lineno for call in ast.walk(ast.parse(source))
                  if isinstance(call, ast.Call) and lacks_encoding(call))


def sources() -> Iterator[pathlib.Path]:
    """All Python of the repository, also that without an ending."""
    for path in (ROOT / name[1:] for name in paths()):
        if path.suffix == ".py" or not path.suffix and is_script(path):
            yield path


def is_script(path: pathlib.Path) -> bool:
    with open(path, "rb") as file:
        first = file.readline()
    return first.startswith(b"#!") and b"python" in first


def judge(_: argparse.Namespace, __: pathlib.Path, fail: Fail) -> Iterable[str]:
    compare("what is wrong", lines_without(WRONG), list(range(2, WRONG.count("\n") + 1)), fail)
    compare("what is right", lines_without(RIGHT), [], fail)
    for path in sources():
        for line in lines_without(path.read_text(encoding="utf-8")):
            yield f"{path.relative_to(ROOT)}:{line}: this takes the encoding of the locale"


if __name__ == "__main__":
    check(judge)
