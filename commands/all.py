"""The commands, by the names that follow `binder-` in a package."""

import importlib

from commands.option import Command

NAMES = ("audit", "fleet", "listing", "methods", "record", "view")


def command(name: str) -> Command:
    """The command of this name. Only its own table is read: that takes a program's time."""
    found: Command = getattr(importlib.import_module(f"commands.{name}"), name.upper())
    return found
