"""Stored answers, which a check compares with what comes, and which it writes anew if it is asked to."""

import difflib
import pathlib

from checks.kit.programs import ROOT


def renew(path: pathlib.Path, text: str) -> None:
    """Writes a stored answer anew, and prints what changed."""
    old, name = path.read_text("utf-8"), str(path.relative_to(ROOT))
    path.write_text(text, "utf-8")
    print("".join(difflib.unified_diff(old.splitlines(True), text.splitlines(True), name, name)), end="")
