"""Packages of Debian, unpacked in folders of their own and not installed. apt compares them with the sums of its signed
lists, and they are kept by these sums."""

import os
import pathlib
import re
import subprocess
import time
from typing import Iterator, Sequence

from checks.recorder.guest.kept import CACHE, alone, kept, run, say

# So many seconds old the lists of a release may be.
OLD = 12 * 3600
MIRROR, SECURITY = "http://deb.debian.org/debian", "http://deb.debian.org/debian-security"


class Missing(Exception):
    """What the registry does not hand out."""


class Release:
    """A release of Debian for an architecture, as apt sees it by lists of its own."""

    def __init__(self, name: str, architecture: str) -> None:
        self.name, self.architecture = name, architecture
        self.room = CACHE / f"apt-{name}-{architecture}"
        self.log = self.room / "log"
        for folder in ("lists/partial", "archives/partial"):
            (self.room / folder).mkdir(parents=True, exist_ok=True)
        (self.room / "nothing-installed").touch()
        (self.room / "sources").write_text("".join(f"{line}\n" for line in self.sources()), "utf-8")
        self.options = [f"-o{name}={value}" for name, value in {
            "Dir::Etc::SourceList": self.room / "sources", "Dir::Etc::SourceParts": "/dev/null",
            "Dir::State::Lists": self.room / "lists", "Dir::Cache": self.room / "archives",
            "Dir::State::status": self.room / "nothing-installed", "APT::Sandbox::User": "root",
            "APT::Architecture": architecture, "APT::Architectures": architecture}.items()]
        self.update()

    def sources(self) -> Iterator[str]:
        yield f"deb {MIRROR} {self.name} main"
        yield f"deb-src {MIRROR} {self.name} main"
        if self.name != "sid":
            yield f"deb {MIRROR} {self.name}-updates main"
            yield f"deb {SECURITY} {self.name}-security main"
        if self.name == "bookworm":
            yield f"deb {MIRROR} bookworm-backports main"

    def update(self) -> None:
        marker = self.room / "updated"
        if marker.exists() and time.time() - marker.stat().st_mtime < OLD:
            return
        try:
            with alone(self.room.name):
                run("apt-get", *self.options, "update", log=self.log)
            marker.touch()
        except subprocess.CalledProcessError:
            if not marker.exists():
                raise Missing(f"the registry has no lists of {self.name}: see {self.log}") from None
            say(f"fetch {self.name}: the registry does not answer, and its lists of before are taken")

    def apt(self, command: str, *words: str, **options: object) -> str:
        try:
            with alone(self.room.name):
                return run(command, *self.options, *words, log=self.log, **options)
        except subprocess.CalledProcessError:
            raise Missing(f"{self.name} for {self.architecture} has not {' '.join(words)}: see {self.log}") from None

    def sums(self, *words: str) -> list[str]:
        """The file and the sum of each that apt-get would fetch."""
        found = re.findall(r"^'[^']*' (\S+) \d+ (\S+:\S+)$", self.apt("apt-get", "--print-uris", *words), re.M)
        if not found:
            raise Missing(f"{self.name} for {self.architecture} has not {' '.join(words)}")
        return [f"{file} {of}" for file, of in sorted(found)]

    def packages(self, what: str, *names: str) -> pathlib.Path:
        """A folder with what is in these packages."""
        def unpack(to: pathlib.Path) -> None:
            self.apt("apt-get", "download", *names, cwd=to)
            for file in sorted(to.glob("*.deb")):
                run("dpkg-deb", "-x", file, to)
                file.unlink()
        return kept(f"{what}-{self.architecture}", self.sums("download", *names), unpack,
                    f"fetch {what} of {self.name}, {len(names)} packages")

    def with_all(self, what: str, *names: str) -> pathlib.Path:
        """The same with all that they need, also what this machine has: the programs run on their own libraries."""
        needed = self.sums("install", "-y", "--no-install-recommends", *names)
        return self.packages(what, *sorted({line.partition("_")[0] for line in needed}))

    def source(self, what: str, package: str) -> pathlib.Path:
        """The upstream sources of a package."""
        words = ("source", "--download-only", "--tar-only", package)

        def unpack(to: pathlib.Path) -> None:
            self.apt("apt-get", *words, cwd=to)
            for file in sorted(to.glob("*.orig.tar.*")):
                run("tar", "xf", file, cwd=to)
                file.unlink()
        return kept(what, self.sums(*words), unpack, f"fetch the sources of {package}, {self.name}")


RELEASES: dict[tuple[str, str], Release] = {}


def release(name: str, architecture: str) -> Release:
    """The release, whose lists are looked at once in a run."""
    if (name, architecture) not in RELEASES:
        RELEASES[name, architecture] = Release(name, architecture)
    return RELEASES[name, architecture]


def linked_libraries(program: pathlib.Path, paths: Sequence[pathlib.Path] = ()) -> list[pathlib.Path]:
    """The libraries of this machine that a program takes."""
    said = run("ldd", program, env={**os.environ, "LD_LIBRARY_PATH": ":".join(map(str, paths))})
    return [pathlib.Path(path) for path in re.findall(r"=> (/(?:usr/)?lib\S+)", said)]
