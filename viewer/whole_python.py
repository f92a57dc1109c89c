"""Whether the Python that runs has its whole library. That of Debian's python3-minimal lacks sqlite3, shutil, shlex and
others, all of which are in one other package: a program looks here before it imports one of them."""

import importlib
import sys


def need_whole_python(program: str, module: str = "sqlite3") -> None:
    """Ends the program with a line if this module is missing, and so maybe the others."""
    try:
        importlib.import_module(module)
    except ImportError:
        sys.stderr.write(f"{program}: the module {module} is missing in {sys.executable}; on Debian this installs it:"
                         " apt-get install python3\n")
        sys.exit(1)
