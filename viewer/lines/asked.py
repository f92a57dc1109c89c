"""From the words of `./listing` to those of the program that reads the capture, and to those of the printer."""

from commands.reading import Given
from viewer.listing_words import PLACES, number_of

# What narrows by numbers that objects have too.
OF_OBJECTS = ("--handle", "--cookie", "--node")
# The options of which the printer knows nothing.
OF_VIEWER = ("--arguments", "--aidl")


def program_words(given: Given) -> list[str]:
    """Those of binder_tables: what is looked for by its place, and whether rows of objects are needed."""
    places = [word for name, values in given.options if name in PLACES
              for value in values for word in (name, str(number_of(value)))]
    return ["--lines", *["--objects"] * given.asks("--objects", *OF_OBJECTS), *places, "--", *given.files]


def words_without(given: Given, *names: str) -> list[str]:
    """The options but for these, each value a word of its own."""
    return [word for name, values in given.options if name not in names for word in (name, *values)]


def printer_words(given: Given) -> list[str]:
    """Those of the printer, and of the program for tables."""
    return words_without(given, *OF_VIEWER)
