"""Takes the bodies and the proofs of functions away, so that a check of the others costs no more than their own."""

import pathlib

from checks.auditor.functions import functions_in, homes_of

# In place of a proof. antt takes what has a hole by its type, which is that the function meets its contract.
HOLE = """use Rattle.{crate}.proofs.{module}.Statement.{{statement}}

pub {name}_spec : {{M : Type 1}} → statement M
{name}_spec = ?
"""


def keep_only(crate: str, folder: pathlib.Path, kept: set[str]) -> None:
    """In a copy of a crate, takes away the body of each function but these, and puts a hole in place of its proof. A
    check of these functions, past holes, then goes by the contracts of all that they call, and proves no other.
    Functions in one cycle of calls have one proof: if one of them is kept, all are. No line moves."""
    homes = homes_of(folder)
    texts = {path: path.read_text("utf-8") for path in sorted((folder / "src").rglob("*.rt"))}
    found = {path: functions_in(path.relative_to(folder).as_posix(), text, homes) for path, text in texts.items()}
    cycles = {it.cycle for functions in found.values() for it in functions if it.name in kept} - {""}
    for path, functions in found.items():
        text = texts[path]
        for one in reversed(functions):
            if one.name in kept or one.cycle in cycles:
                continue
            (first, end), lines = one.body, text.count("\n", *one.body)
            text = f"{text[:first]}{' unreachable!()' if lines else 'unreachable!()'}{lines * chr(10)}{text[end:]}"
            first, end = one.attribute
            text = text[:first] + text[end:]
            put_hole(crate, folder, one.name)
        path.write_text(text, "utf-8")


def put_hole(crate: str, folder: pathlib.Path, function: str) -> None:
    parts = function.split("::")
    path = folder.joinpath("proofs", *parts)
    path.mkdir(parents=True, exist_ok=True)
    for name in ("Invariants.antt", "Answers.antt"):
        (path / name).unlink(missing_ok=True)
    (path / "Proof.antt").write_text(HOLE.format(crate=crate, module=".".join(parts), name=parts[-1]), "utf-8")
