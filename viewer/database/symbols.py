"""The functions in which the addresses of stacks are, by the symbols of files with the same build-id.

`llvm-symbolizer` is called once for all files, or `addr2line` once for each. They read files of this machine only."""

import json
import os
import pathlib
import re
import shutil
import sqlite3
import struct
import subprocess
from typing import BinaryIO, Iterable, Iterator, NamedTuple

# The longest name of a function, and of a source file, that is kept.
LONGEST = 1000

# The most bytes of a table of headers, or of notes, that are looked at, and the most notes of a table.
MOST, MOST_NOTES = 2**16, 64

PT_NOTE, SHT_NOTE, NT_GNU_BUILD_ID = 4, 7, 3


class Function(NamedTuple):
    """A function, and where in its source it goes on."""
    name: str
    source: str | None


# ---- build-ids


class Table(NamedTuple):
    """Where a table of headers is, and in each header the kind, and where in the file its bytes are."""
    at: int
    size: int
    headers: int
    fields: struct.Struct
    places: tuple[int, int, int]
    note: int


def tables_of(head: bytes) -> Iterator[Table]:
    """The tables of segments and of sections, by the head of an ELF file."""
    if head[:4] != b"\x7fELF" or head[5] != 1 or head[4] not in (1, 2):
        return
    if head[4] == 2:
        segments, sections = struct.unpack_from("<QQ", head, 32)
        segment_size, segment_count, section_size, section_count = struct.unpack_from("<HHHH", head, 54)
        yield Table(segments, segment_size, segment_count, struct.Struct("<IIQQQQ"), (0, 2, 5), PT_NOTE)
        yield Table(sections, section_size, section_count, struct.Struct("<IIQQQQ"), (1, 4, 5), SHT_NOTE)
    else:
        segments, sections = struct.unpack_from("<II", head, 28)
        segment_size, segment_count, section_size, section_count = struct.unpack_from("<HHHH", head, 42)
        yield Table(segments, segment_size, segment_count, struct.Struct("<IIIII"), (0, 1, 4), PT_NOTE)
        yield Table(sections, section_size, section_count, struct.Struct("<IIIIII"), (1, 4, 5), SHT_NOTE)


def notes_in(file: BinaryIO, table: Table) -> Iterator[bytes]:
    """The notes that a table leads to. A file that has only debugging information has them in its sections."""
    file.seek(table.at)
    headers = file.read(min(table.size * table.headers, MOST))
    starts = range(0, len(headers) - table.fields.size + 1, table.size) if table.size >= table.fields.size else ()
    rows = [table.fields.unpack_from(headers, at) for at in starts]
    kind, place, size = table.places
    for row in [row for row in rows if row[kind] == table.note][:MOST_NOTES]:
        file.seek(row[place])
        yield file.read(min(row[size], MOST))


def build_id_in(notes: bytes, align: int) -> str | None:
    at = 0
    while len(notes) - at >= 12:
        name, data, kind = struct.unpack_from("<III", notes, at)
        begin = -(-(at + 12 + name) // align) * align
        if kind == NT_GNU_BUILD_ID and notes[at + 12:at + 12 + name] == b"GNU\0":
            return notes[begin:begin + data].hex() if data else None
        at = -(-(begin + data) // align) * align
    return None


def build_id_of(path: str) -> str | None:
    """The build-id of an ELF file; None if it has none, or is damaged or no such file."""
    try:
        with open(path, "rb") as file:
            for table in tables_of(file.read(64)):
                for notes in notes_in(file, table):
                    if found := build_id_in(notes, 4) or build_id_in(notes, 8):
                        return found
    except (OSError, OverflowError, ValueError, struct.error):
        pass
    return None


# ---- files


def files_of(folder: str) -> Iterator[str]:
    """The files of a folder. A file that is opened may be anything else, such as a FIFO, and is passed over."""
    for here, _, names in os.walk(folder):
        for name in names:
            path = os.path.join(here, name)
            if os.path.isfile(path):
                yield path


def by_name(folder: str, build_id: str) -> Iterator[str]:
    """Where a file with this build-id is in a folder that has them by name."""
    for top in (folder, os.path.join(folder, ".build-id")):
        for ending in (".debug", ""):
            yield os.path.join(top, build_id[:2], build_id[2:] + ending)


def files_with(folders: Iterable[str], wanted: set[str]) -> dict[str, str]:
    """For each build-id the file that has it; of several, the largest one that is not found by its name."""
    found: dict[str, str] = {}
    for folder in folders:
        for build_id in wanted - found.keys():
            for path in by_name(folder, build_id):
                if os.path.isfile(path) and build_id_of(path) == build_id:
                    found.setdefault(build_id, path)
    left, sizes = wanted - found.keys(), dict[str, int]()
    for path in (path for folder in folders if left for path in files_of(folder)):
        its_id = build_id_of(path)
        if its_id in left and (size := os.path.getsize(path)) > sizes.get(its_id, -1):
            found[its_id], sizes[its_id] = path, size
    return found


# ---- the programs


def ask(*words: str, text: str) -> str | None:
    """What a program answers; None if it fails. It may not look in the network."""
    answer = subprocess.run(words, input=text, capture_output=True, encoding="utf-8", errors="replace",
                            env={**os.environ, "DEBUGINFOD_URLS": ""})
    return answer.stdout if answer.returncode == 0 else None


def kept(name: str, source: str, line: int) -> Function:
    known = source not in ("", "??")
    return Function(name[:LONGEST], f"{source[-LONGEST:]}:{line}" if known and line else source[-LONGEST:] or None
                    if known else None)


def by_symbolizer(program: str, asked: list[tuple[str, int]]) -> list[list[Function]] | None:
    """The functions at places in files, the innermost one first; None if the program can't tell."""
    answer = ask(program, "--output-style=JSON", "--inlines", "--demangle",
                 text="".join(f'"{path}" 0x{address:x}\n' for path, address in asked))
    lines = [] if answer is None else answer.splitlines()
    if len(lines) != len(asked):
        return None
    return [[kept(one["FunctionName"], one["FileName"], one["Line"]) for one in json.loads(line).get("Symbol", ())
             if one["FunctionName"]] for line in lines]


def by_addr2line(program: str, asked: list[tuple[str, int]]) -> list[list[Function]] | None:
    """The same, by a program that reads one file at a time. It writes each address, and then two lines for each
    function."""
    found: dict[tuple[str, int], list[Function]] = {}
    for path in dict.fromkeys(path for path, _ in asked):
        addresses = [address for its_path, address in asked if its_path == path]
        answer = ask(program, "-a", "-f", "-i", "-C", "-e", path, text="".join(f"0x{one:x}\n" for one in addresses))
        lines = iter((answer or "").splitlines())
        function, left = next(lines, None), iter(addresses)
        while function is not None:
            if re.fullmatch("0x[0-9a-f]{8,16}", function):
                functions = found.setdefault((path, next(left, -1)), [])
            elif function != "??":
                source, _, line = next(lines, "").partition(" (")[0].rpartition(":")
                functions.append(kept(function, source, int(line) if line.isdecimal() else 0))
            else:
                next(lines, None)
            function = next(lines, None)
    return [found.get(one, []) for one in asked]


def functions_at(asked: list[tuple[str, int]]) -> list[list[Function]] | None:
    """The functions at places in files, for each the innermost one first; None if there is no program that tells."""
    for name, by in (("llvm-symbolizer", by_symbolizer), ("addr2line", by_addr2line)):
        program = shutil.which(name)
        found = by(program, asked) if program else None
        if found is not None:
            return found
    return None


# ---- the database


def load(database: sqlite3.Connection, folders: list[str], room: pathlib.Path) -> bool:
    """Puts the functions of the addresses of all stacks into the database. Returns whether there is a program that
    finds them. The files are linked into a folder, so that their names can't be taken for something else."""
    wanted = {name for name, in database.execute("SELECT DISTINCT build_id FROM side_map WHERE build_id NOTNULL")}
    paths = {}
    for number, (build_id, path) in enumerate(sorted(files_with(folders, wanted).items())):
        paths[build_id] = room / f"symbols-{number}"
        paths[build_id].symlink_to(os.path.abspath(path))
    places = [(build_id, address) for build_id, address in database.execute(
        "SELECT DISTINCT build_id, address FROM stack WHERE build_id NOTNULL AND address > 0 ORDER BY 1, 2")
        if build_id in paths]
    # A function returns to the instruction after its call, which may be of another line, or of another function.
    functions = functions_at([(str(paths[build_id]), address - 1) for build_id, address in places]) if places else []
    for link in paths.values():
        link.unlink()
    database.execute("BEGIN")
    database.executemany("INSERT INTO symbol VALUES (?, ?, ?, ?, ?)",
                         ((*place, inlined, *function) for place, found in zip(places, functions or ())
                          for inlined, function in enumerate(found)))
    database.execute("COMMIT")
    return functions is not None
