"""Which wrong forms of the rules a change brings, by git."""

import io
import re
import subprocess
import tarfile
from typing import Mapping, Sequence

from checks.kit.programs import ROOT
from checks.viewer.wrong_rules.play import Wrong, all_forms
from viewer.database.sqlite import statements_in

RULES = "viewer/rules"


def git(*words: str) -> bytes:
    return subprocess.run(["git", "-C", ROOT, *words], check=True, capture_output=True).stdout


def base() -> str:
    """The commit since which the rules are looked at: HEAD if they are changed and not committed, or else the one
    before HEAD."""
    return "HEAD" if git("status", "--porcelain", "--", RULES) else "HEAD~"


def is_changed(commit: str) -> bool:
    return bool(git("diff", "--name-only", commit, "--", RULES) or git("status", "--porcelain", "--", RULES))


def rules_at(commit: str) -> dict[str, str]:
    """The files of the rules at a commit, with their texts."""
    with tarfile.open(fileobj=io.BytesIO(git("archive", commit, RULES))) as archive:
        return {one.name: archive.extractfile(one).read().decode() for one in archive if one.isfile()}  # type: ignore


def thresholds_in(texts: Mapping[str, str]) -> dict[str, float]:
    """The thresholds that thresholds.py had, which needs no other file: it is run."""
    module: dict = {"__name__": "thresholds"}
    exec(texts.get(f"{RULES}/thresholds.py", ""), module)
    return dict(module.get("THRESHOLDS", {}))


def forms_at(texts: Mapping[str, str], thresholds: Mapping[str, float]) -> set[tuple[str, str]]:
    """The forms of the statements in these files: what they are about, and what they do."""
    statements = [one for name, text in texts.items() if name.endswith(".sql") for one in statements_in(text)]
    return {about(form) for form in all_forms(statements, thresholds)}


def about(form: Wrong) -> tuple[str, str]:
    return form.subject.partition(" (")[0], form.what


def brought(statements: Sequence[str], thresholds: Mapping[str, float], commit: str) -> list[Wrong]:
    """The forms that the rules did not have at a commit, and those with thresholds that were others then."""
    texts = rules_at(commit)
    old = thresholds_in(texts)
    before = forms_at(texts, old or thresholds)
    moved = {name for name, value in thresholds.items() if old.get(name) != value}
    return [form for form in all_forms(statements, thresholds)
            if about(form) not in before or moved & set(re.findall(r":([A-Z_]+)\b", form.what))]
