"""Names of methods in `record --live`, by tables as `./view --methods` takes. The lines have interfaces without their
package: where two of a name differ in a method, it has no name."""

from viewer.methods.known import OF_BINDER, methods_of

Names = dict[tuple[str, int], str]


def short(interface: str) -> str:
    """As the recorder keeps it: a name of HIDL stays whole."""
    return interface if "::" in interface else interface.rpartition(".")[2]


def names_of(paths: list[str]) -> Names:
    """Raises NotATable, or OSError."""
    found: dict[tuple[str, int], set[str]] = {}
    for (interface, code), method in methods_of(paths).items():
        found.setdefault((short(interface), code), set()).add(method.name)
    return {key: next(iter(names)) for key, names in found.items() if len(names) == 1}


def called(names: Names, interface: str, code: int) -> str:
    """What is called, in a few words."""
    letters = OF_BINDER.get(code.to_bytes(4, "big").decode("latin-1")) if code < 1 << 32 else None
    method = names.get((interface, code)) or letters
    where = "" if interface == "-" else interface
    if method:
        return f"{where}.{method}" if where else method
    return f"{where} code {code}" if where else f"code {code}"
