"""The defects that are known: a file that lets a gate pass on purpose."""

import re
from typing import Iterator

from viewer.files import Stopped, refuse_named_pipe


def known_in(path: str) -> dict[str, str]:
    """The keys in a file, one a line, each with its comment. A line may be empty, or begin with #."""
    found: dict[str, str] = {}
    refuse_named_pipe(path)
    try:
        with open(path, encoding="utf-8", errors="replace") as lines:
            for number, line in enumerate(lines, 1):
                key, comment = (*line.split(maxsplit=1), "", "")[:2]
                if not key or key.startswith("#"):
                    continue
                if not re.fullmatch("[0-9a-f]{16}", key):
                    raise Stopped(4, f"{path}:{number}: it does not begin with a key, 16 hexadecimal digits")
                found[key] = comment.strip()
    except OSError as error:
        raise Stopped(4, f"{path}: {error.strerror}") from error
    return found


def unseen_lines(known: dict[str, str], there: set[str]) -> Iterator[str]:
    """A line for each known key that does not occur any more."""
    for key, comment in known.items():
        if key not in there:
            yield f"known\t{key}\tdoes not occur\t{comment or '-'}\n"
