"""Files that are made of sources and kept, since to make them takes longer than a small capture: in a folder `out`
beside the sources. In the repository they are made anew when a source is newer; a package has them."""

import functools
import os
import pathlib
from typing import Callable

from viewer.program_names import PACKED


@functools.cache
def newest(folder: pathlib.Path) -> float:
    """When sources were changed last, or their folder: only this shows that a file is gone."""
    with os.scandir(folder) as entries:
        return max(folder.stat().st_mtime, *(
            entry.stat().st_mtime for entry in entries if entry.name.endswith((".sql", ".py"))))


def is_fresh(path: pathlib.Path, folders: tuple[pathlib.Path, ...]) -> bool:
    """Whether the file is there, and none of its sources is newer."""
    try:
        return path.stat().st_mtime >= max(map(newest, folders))
    except OSError:
        return False


def kept(name: str, folders: tuple[pathlib.Path, ...], write: Callable[[pathlib.Path], None]) -> pathlib.Path:
    """The file of this name, which is made of the sources in these folders and kept in the first. If it is missing or
    older than a source, `write` makes it."""
    path = folders[0] / "out" / name
    if not PACKED and not is_fresh(path, folders):
        import threading
        path.parent.mkdir(exist_ok=True)
        new = path.with_name(f"{name}.{threading.get_native_id()}")
        try:
            write(new)
            new.replace(path)
        finally:
            new.unlink(missing_ok=True)
    return path
