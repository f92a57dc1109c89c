"""Wrong forms that nothing tells, and why: untold.txt beside this file.

A line is the name of a form, in which `%` stands for any text; after some of them a line `= WHY` says why nothing can
tell these. Two reasons mean more: `= scenario NAME` says that no small session tells them, but this capture in
samples/driver does; and `= open` that nobody has found out yet."""

import pathlib
import re
from typing import Iterable

PATH = pathlib.Path(__file__).with_name("untold.txt")
OPEN, SCENARIO = "open", "scenario "


class Untold:
    """The reasons, by names."""

    def __init__(self, text: str) -> None:
        self.whys: dict[str, str] = {}
        names: list[str] = []
        for line in text.splitlines():
            if line.startswith("= "):
                self.whys.update(dict.fromkeys(names, line.removeprefix("= ")))
                names = []
            elif line and not line.startswith("#"):
                names.append(line)
        if names:
            raise ValueError(f"{PATH.name}: no reason for {names[0]}")
        self.patterns = {name: re.compile(".*".join(map(re.escape, name.split("%"))))
                         for name in self.whys if "%" in name}

    def name_of(self, form: str) -> str | None:
        """The line that means a form."""
        if form in self.whys:
            return form
        return next((name for name, pattern in self.patterns.items() if pattern.fullmatch(form)), None)

    def why(self, form: str) -> str | None:
        name = self.name_of(form)
        return None if name is None else self.whys[name]

    def idle(self, forms: Iterable[str]) -> list[str]:
        """The lines that mean none of these forms."""
        used = set(map(self.name_of, forms))
        return [name for name in self.whys if name not in used]


def stored() -> Untold:
    return Untold(PATH.read_text("utf-8"))
