#!/usr/bin/env python3
"""Makes a table of the methods of interfaces, from their sources. commands/methods.py has its words."""

import os
import pathlib
import signal
import sys
from typing import Iterable, Iterator, NoReturn

sys.dont_write_bytecode = True
sys.path.insert(0, str(pathlib.Path(__file__).resolve().parents[2]))
from viewer.program_names import called  # noqa: E402
from viewer.whole_python import need_whole_python  # noqa: E402
need_whole_python(called("methods"))
from viewer import terminal  # noqa: E402
from viewer.command_line import Words  # noqa: E402
from viewer.files import Stopped  # noqa: E402
from viewer.methods import cpp, hal  # noqa: E402
from viewer.methods.aidl import Aidl  # noqa: E402
from viewer.methods.sources import Interface, Method, Wrong  # noqa: E402


def tell(text: str) -> None:
    terminal.tell(called("methods"), text)


def fail(error: OSError) -> NoReturn:
    raise error


OF_CPP = (".h", ".hpp", ".cc", ".cpp")


def files_of(words: Iterable[str]) -> Iterator[str]:
    """The files that are named, or lie in a folder that is, each folder in the order of names. Of C++ in a folder only
    those that declare an interface."""
    for word in words:
        if not os.path.isdir(word):
            yield word
            continue
        for folder, folders, names in os.walk(word, onerror=fail):
            folders.sort()
            for name in sorted(names):
                path = os.path.join(folder, name)
                if name.endswith((".aidl", ".hal")):
                    if os.path.isfile(path):
                        yield path
                    else:
                        tell(f"{path}: left out, as it is no file")
                elif name.endswith(OF_CPP) and os.path.isfile(path) and cpp.MARK in pathlib.Path(path).read_bytes():
                    yield path


def text_of(file: str) -> str:
    """The text of a source. A name that can't be a field of the table, or has signs that show nothing, is refused. C++
    may have comments in any encoding."""
    if not file.isprintable():
        raise Wrong(file, 1, "the name has a sign that can't be printed")
    data = pathlib.Path(file).read_bytes()
    if file.endswith(OF_CPP):
        return data.decode(errors="replace")
    try:
        return data.decode()
    except UnicodeDecodeError as error:
        raise Wrong(file, 1 + data.count(b"\n", 0, error.start), "not UTF-8") from None


def interfaces_of(files: Iterable[str]) -> Iterator[Interface]:
    """The interfaces of all files. Those of .hal come after those of .aidl, as each needs its parents; and those of C++
    last, as C++ may be what a compiler made of AIDL, which goes before."""
    owns: list[hal.Own] = []
    sources: list[cpp.Source] = []
    of_aidl: set[str] = set()
    for file in files:
        if file.endswith(".aidl"):
            aidl = Aidl(file, text_of(file))
            aidl.read()
            for what in aidl.skipped:
                tell(f"{what}: left out")
            of_aidl.update(one.name for one in aidl.found)
            yield from aidl.found
        elif file.endswith(".hal"):
            source = hal.Hal(file, text_of(file))
            source.read()
            owns += source.found
        elif file.endswith(OF_CPP):
            sources.append(cpp.Source(file, text_of(file)))
        else:
            os.stat(file)  # a file that is not there is told as such
            raise Wrong(file, 1, "neither .aidl nor .hal, nor C++")
    if owns:
        yield from hal.with_parents(owns)
    by_hand, left_out = cpp.interfaces_of(sources)
    for what in left_out:
        tell(f"{what}: left out")
    yield from (one for one in by_hand if one.name not in of_aidl)


def table_of(interfaces: Iterable[Interface]) -> dict[tuple[str, int], Method]:
    """The methods by interface and code. An interface may come several times, as in the stored versions of a source,
    as long as each code means one method: else it is left out, as tests of a system may use one name for several."""
    table: dict[tuple[str, int], Method] = {}
    unclear: dict[str, str] = {}
    for interface in interfaces:
        for method in interface.methods:
            before = table.setdefault((interface.name, method.code), method)
            if before.name != method.name:
                unclear.setdefault(interface.name, f"{method.source}: {interface.name}: left out, as its code"
                                   f" {method.code} is {method.name} here, and {before.name} at {before.source}")
    for what in unclear.values():
        tell(what)
    return {key: method for key, method in table.items() if key[0] not in unclear}


def main() -> int:
    line = Words("methods", called("methods"))
    line.add_argument("sources", metavar="SOURCE", nargs="+")
    words = line.parse_args().sources
    try:
        files = list(files_of(words))
        if not files:
            tell(f"no .aidl or .hal file in {' '.join(words)}, nor C++ that declares an interface")
            return 1
        table = table_of(interfaces_of(files))
        signal.signal(signal.SIGPIPE, signal.SIG_DFL)
        terminal.write(f"{interface}\t{code}\t{method.name}\t{method.source}\n"
                       for (interface, code), method in sorted(table.items()))
        return 0
    except Wrong as wrong:
        tell(str(wrong))
        return 1
    except Stopped as stopped:
        tell(str(stopped))
        return stopped.status
    except OSError as error:
        tell(f"{error.filename or 'standard output'}: {error.strerror}")
        return 4


if __name__ == "__main__":
    # All is written. What standard output did not take, Python would try once more, and end with a status of its own.
    os._exit(main())
