"""Compares the captures of crates/audit_cases/data, and copies of some of them in other crates, with `kit/captures.py`,
which makes them.

    checks/run captures              names each file that differs
    checks/run captures -- --write   first writes them into the folder
"""

from checks.kit.captures import CAPTURES, TABLE
from checks.kit.checking import FLAG, check
from checks.kit.programs import CASES, ROOT

# The crates with copies of some captures.
COPIES = "audit_changes", "binder_audit", "binder_tables"


def expected():
    """Every file of the folder, by its name."""
    return CAPTURES | {path.name: path.read_bytes() for path in ROOT.glob("samples/*.cap")}


def differences():
    """The files that differ, are missing, or should not be there."""
    files, wanted = {path.name: path.read_bytes() for path in CASES.iterdir() if path.is_file()}, expected()
    yield from (CASES / name for name in sorted(files | wanted) if files.get(name) != wanted.get(name))
    for crate in COPIES:
        for path in sorted((ROOT / "crates" / crate / "data").iterdir()):
            if path.read_bytes() != wanted.get(path.name):
                yield path


def judge(given, *_):
    if given.write:
        for name, capture in expected().items():
            (CASES / name).write_bytes(capture)
    for path in differences():
        why = next((f" of {why}" for name, why, _ in TABLE if name == path.stem), "")
        yield f"{path.relative_to(ROOT)}: not the capture{why} that kit/captures.py makes"


if __name__ == "__main__":
    check(judge, write=FLAG)
