"""The first file system of a guest, from a list of what is in it: an initramfs, which cpio makes."""

import pathlib
import shutil
import subprocess
import tempfile

# What is at a path in the guest: a file or folder of this system; a text; a link to a path there; or an empty folder.
What = pathlib.Path | str | bytes | None
Files = dict[str, What]


class Link(str):
    """A symbolic link to a path of the guest."""


def put(what: What, path: pathlib.Path) -> None:
    path.parent.mkdir(parents=True, exist_ok=True)
    if what is None:
        path.mkdir(exist_ok=True)
    elif isinstance(what, Link):
        path.symlink_to(what)
    elif isinstance(what, pathlib.Path) and what.is_dir():
        shutil.copytree(what, path, symlinks=True, dirs_exist_ok=True)
    elif isinstance(what, pathlib.Path):
        shutil.copy(what, path)
    else:
        path.write_bytes(what.encode() if isinstance(what, str) else what)
        path.chmod(0o755)


def write(files: Files, to: pathlib.Path) -> None:
    """Writes an initramfs. It is not packed, which a translated processor would take long to unpack."""
    with tempfile.TemporaryDirectory() as made:
        for name, what in files.items():
            put(what, pathlib.Path(made, name))
        names = sorted(str(path.relative_to(made)) for path in pathlib.Path(made).rglob("*"))
        with to.open("wb") as out:
            subprocess.run(["cpio", "--null", "--quiet", "-o", "-H", "newc", "-R", "0:0"], cwd=made, stdout=out,
                           input="\0".join(names).encode(), check=True)
