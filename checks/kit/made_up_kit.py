"""A toolchain whose prover is made up: it takes no time, and says of the crate `low` what the environment has as SAYS,
with LAST for the last line, once no file WAITS is there any more. Its `rt` is the real one."""

import pathlib
import shutil
import subprocess
import sys

# What the real prover ends with, and what may stand in the place of `WORDS`.
LAST = "logic=proved WORDS native=nat,char,string logic-built=trusted libraries-built=trusted statements=trusted"
GOOD = "functions=1 sum=dac8208d650f15bf"

PROVER = """\
#!{python} -S
import os, pathlib, sys, time
words = sys.argv[1:]
if "--help" in words:
    sys.exit()
kit = pathlib.Path({kit!r})
name, to = words[words.index("--crate-name") + 1], pathlib.Path(words[words.index("-o") + 1])
with open(kit / "proved", "a") as file:
    file.write(name + "\\n")
made = to
if to.suffix == ".rlib":
    to.mkdir()
    made = to / "statements"
root = pathlib.Path("src/main.rt")
made.write_text((root if root.exists() else pathlib.Path("src/lib.rt")).read_text())
told = os.environ if name == "low" else {{}}
while os.path.exists(told.get("WAITS", "")):
    time.sleep(0.05)
print(told.get("SAYS", ""), end="")
print(told.get("LAST", {last!r}))
"""
# What it links is a script that says what the program was made from.
LINKER = """\
#!{python} -S
import os, pathlib, sys
words = sys.argv[1:]
to = pathlib.Path(words[words.index("-o") + 1])
made = next(pathlib.Path(it) for it in words if it.endswith(".o"))
to.write_text("#!/bin/sh\\ncat <<'END'\\n" + made.read_text() + "END\\n")
to.chmod(0o755)
"""


class Kit:
    """The folder of such a toolchain, and `path`, the folder of its command `rt`."""

    def __init__(self, folder: pathlib.Path) -> None:
        self.folder, self.path = folder, folder / "path"
        said = subprocess.run(["rt", "doc"], stdout=subprocess.PIPE, encoding="utf-8", check=True).stdout
        real = pathlib.Path(said.strip()).parent
        (folder / "bin").mkdir(parents=True)
        for name in ("rt", "rtlib.py"):
            shutil.copy(real / "bin" / name, folder / "bin")
        for name in ("KIT-ID", "START-HERE.md", "WHAT", "rlibs", "rattle", "c", "logic_built", "toolchain"):
            (folder / name).symlink_to(real / name)
        for name, text in ("rattle", PROVER), ("rattle-link", LINKER):
            made = folder / "bin" / name
            words = {"python": sys.executable, "kit": str(folder), "last": LAST.replace("WORDS", GOOD)}
            made.write_text(text.format(**words), "utf-8")
            made.chmod(0o755)
        self.path.mkdir()
        (self.path / "rt").symlink_to(folder / "bin/rt")

    def proved(self) -> list[str]:
        """The crates that were proved since this was last asked."""
        told = self.folder / "proved"
        names = told.read_text("utf-8").split() if told.exists() else []
        told.unlink(missing_ok=True)
        return names
