"""Checks that linters have nothing to say of the sources, each with its settings at the top of the repository.

    checks/run lint
    checks/run lint -- --tool TOOL     runs one of them: seconds

- flake8, all Python: .flake8
- mypy, the types of the Python that pyproject.toml names
- shellcheck, all scripts for bash and for the shells of guests and devices: .shellcheckrc

A file without a suffix is Python or a script by its first line. What had no fault is kept in checks/out/lint. It is
looked at again if the file, what it reads, the linter or its settings changed; mypy keeps there what it knows of each
module.
"""

import argparse
import os
import pathlib
import re
import subprocess
from concurrent.futures import ThreadPoolExecutor
from typing import Iterator

from checks.kit.checking import Fail, check
from checks.kit.programs import ROOT
from checks.pages.clean import KEPT, READS, Clean
from checks.pages.sources import paths

# By the suffix, and without one by the first line.
PYTHON = re.compile(r"#!.*\bpython3?( -S)?$")
SHELL = re.compile(r"#!.*\b(?:bash|sh)$")

TOOLS = ("flake8", "mypy", "shellcheck")
FORMS = {"flake8": (), "shellcheck": ("--format=gcc",)}


def is_by_line(path: pathlib.Path, first: re.Pattern[str]) -> bool:
    with path.open(encoding="utf-8", errors="replace") as file:
        return bool(first.match(file.readline().rstrip("\n")))


def sources(suffixes: tuple[str, ...], first: re.Pattern[str]) -> Iterator[str]:
    """The files with these suffixes, and those without one that begin so. That of `.ci` is one of them."""
    for name in [path.removeprefix("/") for path in paths()] + [".ci/run"]:
        path = ROOT / name
        if path.suffix in suffixes or not path.suffix and os.access(path, os.X_OK) and is_by_line(path, first):
            yield name


def files_of(tool: str) -> list[str]:
    return list(sources((".py",), PYTHON) if tool == "flake8" else sources((".sh", ".bash"), SHELL))


def said_by(words: list[str]) -> list[str]:
    """What a linter says, at the top of the repository."""
    ended = subprocess.run(words, cwd=ROOT, stdin=subprocess.DEVNULL, stdout=subprocess.PIPE, stderr=subprocess.STDOUT,
                           encoding="utf-8", errors="replace")
    if ended.returncode and not ended.stdout:
        return [f"status {ended.returncode}"]
    return ended.stdout.splitlines()


def faults_of(tool: str) -> list[str]:
    if tool == "mypy":
        return said_by([tool, "--no-error-summary", f"--cache-dir={KEPT / tool}"])
    clean = Clean(tool, READS[tool](files_of(tool)))
    others = clean.others()
    faults = said_by([tool, *FORMS[tool], *others]) if others else []
    clean.keep(faults)
    return faults


def judge(given: argparse.Namespace, _: pathlib.Path, fail: Fail) -> None:
    """Runs the linters side by side."""
    tools = [given.tool] if given.tool else TOOLS
    with ThreadPoolExecutor(len(tools)) as pool:
        for tool, faults in zip(tools, pool.map(faults_of, tools)):
            for fault in faults:
                fail(f"{tool}: {fault}")


if __name__ == "__main__":
    check(judge, tool={"choices": TOOLS})
