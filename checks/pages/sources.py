"""The files of sources that pages name are there, and docs/ARCHITECTURE.md names every crate."""

import functools
import os
import pathlib
import re
from typing import Iterator

from checks.kit.programs import ROOT

MAP = ROOT / "docs/ARCHITECTURE.md"
# A file of sources by its name or path. `NAME.antt` and `name.rt` stand for any name.
SOURCE = re.compile(r"`((?:[\w.-]+/)*(?!(?:NAME|name)\.)[\w-]+\.(?:rt|antt|py|sql|sh|c|edit))`")


@functools.cache
def paths() -> list[str]:
    """The paths of all files, each after a slash, but for what is built."""
    found: list[str] = []
    for folder, inner, names in os.walk(ROOT):
        inner[:] = [name for name in inner if name != "out" and not name.startswith(".")]
        found += [f"/{pathlib.Path(folder, name).relative_to(ROOT)}" for name in names]
    return found


def wrong(page: pathlib.Path) -> Iterator[tuple[int, str]]:
    """The files of sources that a page names and the repository does not have, each with its line; and the crates that
    the map leaves out."""
    text = page.read_text("utf-8")
    if page == MAP:
        for line in (ROOT / "crates.txt").read_text("utf-8").splitlines():
            crate = line.partition(":")[0].split()[0]
            if not line.startswith("#") and f"`{crate}`" not in text:
                yield 1, f"nothing of the crate {crate}"
    for name in SOURCE.finditer(text):
        if not any(path.endswith("/" + name[1]) for path in paths()):
            yield text.count("\n", 0, name.start()) + 1, f"no file {name[1]}"
