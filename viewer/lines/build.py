"""Builds the printer of lines, in C."""

import os
import pathlib
import tempfile

from viewer.database.raw_tables import compile_c, need_compiler
from viewer.lines.numbers import lines
from viewer.lines.run import FOLDER, PRINTER, READER, is_ready, path

HEADER = "numbers.h"


def build_printer(folder: pathlib.Path, *how: str) -> pathlib.Path:
    """Builds the printer into a folder, with these words for the compiler besides."""
    sources = pathlib.Path(FOLDER)
    (folder / HEADER).write_text("".join(f"{line}\n" for line in lines()), "utf-8")
    own = sorted(it.name for it in sources.glob("*.c"))
    compile_c(folder / PRINTER, sources, [*own, f"{READER}.c"], f"-I{folder}", *how)
    return folder / PRINTER


def need_printer() -> None:
    """Builds the printer if it is missing or older than a source."""
    if is_ready():
        return
    need_compiler()
    out = pathlib.Path(path()).parent
    out.mkdir(exist_ok=True)
    with tempfile.TemporaryDirectory(prefix="new-", dir=out) as new:
        os.replace(build_printer(pathlib.Path(new)), path())
