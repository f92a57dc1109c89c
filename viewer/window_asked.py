"""The options that ask for a part of the time. What reads their values is imported where one is given."""

import argparse

from viewer.command_line import Reading, read_by

READ: Reading = {"--last": read_by("viewer.window", "length"), "--between": read_by("viewer.window", "moment"),
                 "--around": read_by("viewer.window", "place")}


def is_asked(asked: argparse.Namespace) -> bool:
    return not (asked.last is None and asked.between is None and asked.around is None)
