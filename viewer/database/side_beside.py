"""The side lists that lie beside the files of a capture, by their names."""

import os
import re


def side_beside(files: list[str]) -> list[str]:
    """OUT-N.side of each OUT-N.cap, or OUT.side of all; nothing if they are not there."""
    stems = [file.removesuffix(".cap") for file in files if file.endswith(".cap")]
    if len(stems) != len(files):
        return []
    own = list(dict.fromkeys(f"{stem}.side" for stem in stems))
    of_all = list(dict.fromkeys(re.sub(r"-[0-9]+$", "", stem) + ".side" for stem in stems))
    return next((sides for sides in (own, of_all if len(of_all) == 1 else []) if all(map(os.path.isfile, sides))), [])
