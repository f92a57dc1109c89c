"""The commits that pages name are in the history of the repository, so that a figure can be measured again."""

import functools
import pathlib
import re
import subprocess
from typing import Iterator

from checks.kit.programs import ROOT
from checks.pages import lengths

# The first 7 or 8 digits of a commit's sum. A number has no letter, and no word of a page is made so.
COMMIT = re.compile(r"\b(?=\d*[a-f])(?=[a-f]*\d)[0-9a-f]{7,8}\b")


def git(*words: str) -> subprocess.CompletedProcess[str]:
    return subprocess.run(["git", "-C", str(ROOT), *words], capture_output=True, encoding="utf-8", check=False)


@functools.cache
def has_history() -> bool:
    """Whether the sources are a clone with all commits, and not what was copied or cloned in part."""
    return git("rev-parse", "--is-shallow-repository").stdout.strip() == "false"


@functools.cache
def is_in_history(name: str) -> bool:
    """Whether this is a commit that HEAD stands on. A clone may have others too, which go with it."""
    return git("merge-base", "--is-ancestor", name, "HEAD").returncode == 0


def wrong(page: pathlib.Path) -> Iterator[tuple[int, str]]:
    """The commits that the page names and the history lacks, each with its line."""
    if not lengths.readers(page) or not has_history():
        return
    for number, line in enumerate(lengths.prose(page.read_text("utf-8")), 1):
        for name in COMMIT.findall(re.sub(r"`[^`]*`", "", line)):
            if not is_in_history(name):
                yield number, f"no commit {name}"
