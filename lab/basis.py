"""What a result rests on: a digest of the programs, the rules and the tables that make results. What only shows or
compares them is not in it, so that a page or a comparison can change, and no capture is viewed again."""

import hashlib
import pathlib
import re
from collections.abc import Iterator

from viewer.database.raw_tables import BUILT
from viewer.program_names import BEHIND, LIBRARY, PACKED

# The folders of the repository, or of a package, all of whose files count; and single files.
FOLDERS = "viewer/database", "viewer/rules", "viewer/methods"
FILES = ("viewer/clocks.py", "viewer/malformed.py", "viewer/units.py", "viewer/defects/seen.py",
         "viewer/defects/times.py", "viewer/page/queries/defects.sql", "lab/form.py", "lab/one.py",
         "lab/result.py", "lab/worker.py", "lab/wrong_list.py")
SOURCES = (".c", ".h", ".py", ".sql")

# How a result says it: near its beginning.
SAID = re.compile(rb'"(basis|tables)":"([0-9a-f]{32})"')
BEGINNING = 4096


def files_of(root: pathlib.Path) -> Iterator[tuple[str, pathlib.Path]]:
    """The files that make results, each with a name that does not depend on where they are."""
    for folder in FOLDERS:
        yield from ((str(path.relative_to(root)), path) for path in (root / folder).rglob("*")
                    if path.suffix in SOURCES and "out" not in path.relative_to(root).parts)
    yield from ((name, root / name) for name in FILES)
    for name in BEHIND.values():
        yield name, LIBRARY / name if PACKED else root / "crates" / name / "out" / name
    if PACKED:
        yield from ((name, LIBRARY / name) for name in BUILT)


def digest_of(pieces: Iterator[bytes]) -> str:
    whole = hashlib.blake2b(digest_size=16)
    for piece in pieces:
        whole.update(piece)
    return whole.hexdigest()


def basis_of(root: pathlib.Path) -> str:
    """The digest of what makes results, by the programs in this folder."""
    def pieces() -> Iterator[bytes]:
        for name, path in sorted(files_of(root)):
            if path.is_file():
                yield name.encode() + b"\0" + hashlib.blake2b(path.read_bytes()).digest()
    return digest_of(pieces())


def tables_of(paths: list[str]) -> str:
    """The digest of tables of methods, in whatever order."""
    return digest_of(iter(sorted(hashlib.blake2b(pathlib.Path(path).read_bytes()).digest() for path in paths)))


def said_in(path: str) -> dict[str, str]:
    """On which basis and which tables a result rests, as it says."""
    with open(path, "rb") as file:
        return {name.decode(): digest.decode() for name, digest in SAID.findall(file.read(BEGINNING))}
