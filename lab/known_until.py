"""Defects that are known in a lab, each perhaps only until a build, with an owner and a bug."""

import re
from typing import NamedTuple

from viewer.defects import known_keys

# A word with which a comment may begin: the build until which the defect is known, who mends it, and its bug.
SAID = re.compile(r"(until|owner|bug)=(\S+)\s*")


class Known(NamedTuple):
    """What a file says of a defect: the last build that may have it, if it names one, the comment without the words
    before it, and the owner and the bug, if it names them."""
    until: str | None
    comment: str
    owner: str | None = None
    bug: str | None = None

    def __str__(self) -> str:
        return "known" if self.until is None else f"known until {self.until}"

    @property
    def whose(self) -> str:
        """The owner and the bug."""
        return ", ".join(filter(None, (self.owner, self.bug and f"bug {self.bug}")))


def known_of(comment: str) -> Known:
    words: dict[str, str] = {}
    while (said := SAID.match(comment)) and said[1] not in words:
        words[said[1]] = said[2]
        comment = comment[said.end():]
    return Known(words.get("until"), comment, words.get("owner"), words.get("bug"))


def known_in(path: str) -> dict[str, Known]:
    """The defects in a file, by their keys."""
    return {key: known_of(comment) for key, comment in known_keys.known_in(path).items()}
