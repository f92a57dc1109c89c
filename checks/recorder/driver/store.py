"""store.py AUDITOR FROM TO [SUFFIX NAME..]: stores the small scenarios of a guest, with their books and the report on
each; with NAMEs only these, each in a folder with the SUFFIX."""

import pathlib
import shutil
import subprocess
import sys

from checks.recorder.driver import books
from checks.recorder.driver.recording import Recording, report_on

LARGEST = 200_000  # bytes of a capture with its side list
# The ways to record a scenario of which something is stored.
WAYS = ("both", "record", "redact", "narrow", "before", "alive", "beyond", "stacks", "frameless", "two-drivers")


def store_symbols(program, folder):
    """Of a program whose stacks were recorded only its symbols are kept."""
    folder.mkdir()
    subprocess.run(["objcopy", "--only-keep-debug", program, folder / "program.debug"], check=True)
    (folder / "program.debug").chmod(0o644)


def main(auditor, source, to, suffix="", *names):
    to = pathlib.Path(to)
    if to.resolve() == pathlib.Path(source).resolve():
        sys.exit("store.py: FROM and TO are the same folder")
    for folder in sorted(pathlib.Path(source).iterdir()):
        if not folder.is_dir() or names and folder.name not in names:
            continue
        captures = Recording(folder).captures
        files = [*captures, folder / "capture.side"]
        if len(captures) != 1 or sum(path.stat().st_size for path in files) > LARGEST:
            continue
        if (folder / "status").read_text("utf-8").split()[1] not in WAYS:
            continue
        status, text = report_on(auditor, captures)
        if status:
            sys.exit(f"store.py: {folder}: {text}")
        kept = to / (folder.name + suffix)
        shutil.rmtree(kept, ignore_errors=True)
        kept.mkdir(parents=True)
        saved = [folder / name for name in books.NAMES if (folder / name).exists()]  # the driver in Rust has no log
        for path in (*files, *folder.glob("capture.*.*"), *saved):
            shutil.copyfile(path, kept / path.name)
        (kept / "report.txt").write_text(text, "utf-8")
        if (folder / "status").read_text("utf-8").split()[1] == "stacks":
            store_symbols(folder / "program", kept / "symbols")


if __name__ == "__main__":
    main(*sys.argv[1:])
