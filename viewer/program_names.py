"""Where the programs are and how they are called: in the repository, or in a package of `./package`."""

import pathlib
import re

FOLDER = pathlib.Path(__file__).resolve().parent

# A package has no sources. Its programs are in lib/binder-audit, and their names begin with `binder-`.
PACKED = not (FOLDER / "database/load.c").exists()
LIBRARY = FOLDER.parents[2] / "lib/binder-audit"

# The programs that the repository has, by the names that follow `binder-` in a package.
PROGRAMS = {**{name: f"./{name}" for name in ("audit", "listing", "record", "view", "fleet")},
            "methods": "viewer/methods/table.py"}
NAMES = {command: name for name, command in PROGRAMS.items()}
# The proved programs that the viewer asks, by the commands that users call: ./listing runs this one for tables, and
# another one for lines.
BEHIND = {"audit": "binder_audit", "listing": "binder_tables"}
CALL = "|".join(rf"{re.escape(command)}\b" for command in NAMES)


def called(program: str) -> str:
    """The command by which a user calls a program."""
    return f"binder-{program}" if PACKED else PROGRAMS[program]


def called_anywhere(program: str) -> str:
    """The same from any folder."""
    return called(program) if PACKED else str(FOLDER.parent / PROGRAMS[program])


def as_called(text: str) -> str:
    """A text in which the programs are called as here."""
    return as_packed(text) if PACKED else text


def as_packed(text: str) -> str:
    """A text in which the programs are called as in a package."""
    return re.sub(CALL, lambda found: f"binder-{NAMES[found[0]]}", text)


def commit(is_change_told: bool = True) -> str | None:
    """The commit of which the viewer is, with `.changed` after it if a file was changed since, for which each file is
    looked at; None if that is not known."""
    if PACKED:
        found = re.search(r"^commit (\w+) of .* UTC( and changes .*)?$", (FOLDER.parent / "version").read_text("utf-8"),
                          re.MULTILINE)
        return found[1] + (".changed" if found[2] else "") if found else None
    import subprocess
    try:
        asked = subprocess.run(["git", "-C", FOLDER.parent, "describe", "--always", "--exclude=*", "--abbrev=40",
                                *(["--dirty=.changed"] if is_change_told else [])],
                               capture_output=True, encoding="utf-8")
    except OSError:
        return None
    return asked.stdout.strip() or None
