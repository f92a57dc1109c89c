"""The crates of this repository, what they and the programs are made from, and the toolchain that proves them."""

import pathlib
import re
import subprocess

CRATES = pathlib.Path(__file__).resolve().parent
# How long a proof takes about: for a crate, and for each function of it.
SECONDS_OF_A_CRATE = 20
SECONDS_OF_A_FUNCTION = 3
FUNCTION = re.compile(rb"\bfn \w")


class Stopped(Exception):
    """What keeps the programs from being built."""


class Toolchain:
    """Where the prover and its own libraries are, and their version."""

    def __init__(self) -> None:
        try:
            said = [subprocess.run(["rt", word], capture_output=True, encoding="utf-8", check=True).stdout.strip()
                    for word in ("doc", "version")]
        except FileNotFoundError as error:
            raise Stopped("the toolchain's command rt is missing") from error
        except (OSError, subprocess.CalledProcessError) as error:
            raise Stopped(f"the toolchain's command rt does not run: {error}") from error
        self.folder = pathlib.Path(said[0]).parent
        self.version = said[1]

    def library(self, name: str) -> pathlib.Path:
        return self.folder / "rlibs" / f"{name}.rlib"


class Crate:
    """A crate of the repository, and the names of those that it uses: the repository's own, and the toolchain's. Once
    its key is known, `entry` is the folder where it is kept."""

    def __init__(self, name: str) -> None:
        self.name = name
        self.folder = CRATES / name
        self.own: list["Crate"] = []
        self.of_toolchain: list[str] = []
        self.is_program = (self.folder / "src/main.rt").is_file()
        self.entry = pathlib.Path()

    @property
    def made_name(self) -> str:
        return f"{self.name}.o" if self.is_program else f"{self.name}.rlib"

    @property
    def made(self) -> pathlib.Path:
        return self.entry / self.made_name

    @property
    def made_by_rt_ci(self) -> pathlib.Path:
        return self.folder / "out/rlib" / f"{self.name}.rlib"

    @property
    def program(self) -> pathlib.Path:
        return self.folder / "out" / self.name

    @property
    def note(self) -> pathlib.Path:
        return self.program.with_suffix(".noted")

    def sources(self) -> list[pathlib.Path]:
        return [file for folder in ("src", "specs", "proofs") for file in sorted((self.folder / folder).rglob("*.*t*"))
                if file.suffix in (".rt", ".antt")]

    def made_from(self) -> str:
        """All that the crate is made from but the libraries below it, which it names."""
        texts = [(str(file.relative_to(CRATES)), file.read_bytes()) for file in self.sources()]
        return repr((self.name, self.of_toolchain, [it.name for it in self.own], texts))

    def seconds(self) -> int:
        """How long its proof takes about. Functions of one crate differ much, but the sums of crates do less."""
        functions = sum(len(FUNCTION.findall(file.read_bytes())) for file in self.sources() if file.suffix == ".rt")
        return SECONDS_OF_A_CRATE + SECONDS_OF_A_FUNCTION * functions


def crates_in(text: str) -> dict[str, Crate]:
    """The crates of crates.txt, each linked to those that it uses."""
    used: dict[str, list[str]] = {}
    for line in text.splitlines():
        name, colon, uses = line.split("#")[0].partition(":")
        if colon:
            used[name.split()[0]] = uses.split()
    crates = {name: Crate(name) for name in used}
    for name, names in used.items():
        crates[name].own = [crates[it] for it in names if it in crates]
        crates[name].of_toolchain = [it for it in names if it not in crates]
    return crates


def all_below(crate: Crate) -> list[Crate]:
    """The crates that this one is made of, each after those that it uses; the crate itself is the last."""
    found: dict[str, Crate] = {}
    for used in crate.own:
        found.update((it.name, it) for it in all_below(used))
    return [*found.values(), crate]
