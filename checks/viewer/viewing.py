"""Checks what `view` takes and says besides the stored captures: words, files, side lists, books, names, stacks, times,
another capture to compare with, and what means harm.

    checks/run viewing [-- CASE..]   plays these cases alone, as `side`
    checks/run viewing -- --browser  checks the page in Debian's chromium, without a window, and what it prints; takes
                                     pdftotext; by hand
    checks/run viewing -- --large    checks and prints how many bytes large pages have, and what of the processor it
                                     takes chromium to open them; by hand
    checks/run viewing -- --pictures makes the pictures of the page in docs/PAGE.md anew; by hand
    checks/run viewing -- --edits [EDIT]
                                     tries wrong templates of the page: each edit of page/edits.txt must be refused, and
                                     a line says by which check; by hand. EDIT is a part of the names of some, or
                                     several with commas

What must hold:

- The page says how long findings lasted, which fields a row has, who served failed calls, and what is held at the end.
- --last, --between and --around show the groups, calls, records and events of a time, and of nothing else.
- The page says when things were, by the clocks of the side list, and nothing of it without one.
- The files of a flight recorder, each with its side list, are shown like the whole capture; the last one alone says
  what it cannot know.
- The head names the process, or the app, that wrote over half of the files of a flight recorder, and no other; and of
  each reason for which frames were lost the process that lost most.
- The folded sections have what they are for: whom each thread serves and since when, slow calls of main threads from
  the time of --slow on, largest transactions, senders, holders, death recipients, descriptors. A group of sends that
  found no space at their receiver has a table of what filled it.
- Page, database and side list of a capture have no secret of its payloads, and a redacted capture has none either.
- A side list of another form, or of another capture, what is no side list, and a line that is none, are refused in a
  line; a list that is cut while it is loaded crashes nothing. A list with many frames in a line has in the database
  what it has with a line for each. If a side list may belong to another capture, a line says so. A thread that changed
  its name has the last one, and what that costs has a ceiling. If frames are later than the end of the recording, a
  line says how many.
- A malformed capture, in one file or in parts, has a page with the line of its fault and what comes before it, and
  status 2. Standard error and the first line of --groups name the file and what the fault means; the status is 2 with
  --fail-on too.
- Zeros at the end of a capture or a side list, as after a loss of power, are left out, and a line says how many: what
  comes before them is shown, also of other files, and nothing is said of their order.
- A pipe, a folder, and a capture that changes while it is read end in a line. A file by whatever name is read.
- The side list that lies beside a capture by its name is taken, and a line says so. A line says at the end what a page
  has. At a terminal --groups prints columns, with the sentences of rules, of what is real or maybe, and of all with
  --all.
- A page is whole or not there, whatever ends it. It replaces an earlier page of the capture, and no other file.
- SIGTERM leaves nothing in TMPDIR.
- `--version` says the commit. Without a part of Python's library a line names that.
- Names from a stranger run nothing, break nothing and change no direction of text. Existing files are not overwritten.
- All markup is in the templates of the page. Without their engine only the page is refused.
- The driver's books at the end agree with the report, or a line says where not, or why they are not compared; copies
  that are no such books are left out, also those with numbers of thousands of digits, and what long ones take has a
  ceiling. A process is called what its command line says, where that is more than its name.
- Beside a user id is what Android calls it, with its packages; a list that is none is told. Processes that make calls
  of 32 bits are named and counted.
- Of calls whose data name an interface, page, database, groups and timeline have that, and the methods of a table of
  `viewer/methods/table.py`. A table changes no verdict, and nothing of a capture without names. A wrong one is refused.
- With --arguments, page, database and listing have what transactions say, and without it nothing of that.
- Of a side list with stacks the page shows that of the first record of a group, and how many have the same; the
  functions after the first twelve, and other stacks, are folded. It says which function tells the stacks of what was
  not freed from those of what was. Files with the same build-id name functions.
- A service has its name, and what means harm names nothing.
- Against the database of another capture, lines and marks say what is new, worse, grown or gone, and `gone` only of
  what could have come up again. Keys that are not alike are refused, a side list on one side only, and a database that
  `view` did not make so. `--fail-on` gives status 10 for what is not known.
- SIGKILL leaves a folder, which the next `view` removes.
- The loader puts each row as it is into its table, and refuses rows that are not whole.
- Of a large page nothing is lost that is packed. The strip of time has each group where its findings were, and the
  moment at which a capture was kept; the page opens at what it was kept for. Growth draws what stays.
- A set that a flight recorder has kept says why, and a recording of a part of a system says which part.
- No statement of the rules takes the square of what a capture has.
- The rules in docs/RULES.md are those of the database, and so are the names, columns, types and keys in
  docs/DATABASE.md.

It calls the programs of the repository.
"""

import argparse
import pathlib
import tempfile

from checks.kit.cases import parts_of, play, side_by_side
from checks.kit.checking import FLAG, Fail, check
from checks.kit.programs import built_programs, programs
from checks.viewer.page.against import check_against
from checks.viewer.page.books import (check_agreement, check_bad_books, check_commands, check_copies,
                                      check_long_books)
from checks.viewer.page.browser import check_browser
from checks.viewer.page.culprits import check_fillers, check_losers
from checks.viewer.page.drawn import check_bars, check_floors, check_kept, check_parts, check_strip
from checks.viewer.page.files import (check_again, check_beside, check_changing, check_malformed, check_names,
                                      check_pipes, check_terminal, check_whole)
from checks.viewer.page.growth import check_growth
from checks.viewer.page.large import check_large
from checks.viewer.page.methods import check_methods, check_unnamed
from checks.viewer.page.said import check_arguments
from checks.viewer.page.moments import check_moments
from checks.viewer.page.packed import check_broken, check_packed, check_timing
from checks.viewer.page.sections import check_filled, check_sections
from checks.viewer.page.pictures import make_pictures
from checks.viewer.page.power import check_power
from checks.viewer.page.services import check_manager, check_services
from checks.viewer.page.sides import (check_files, check_forms, check_last_names, check_late, check_list_of_loader,
                                      check_loader, check_narrowed, check_no_lists, check_packed_lists, check_renames,
                                      check_side, check_times)
from checks.viewer.page.stacks import check_stacks
from checks.viewer.page.users import check_bits, check_packages
from checks.viewer.page.words import (check_hostile, check_no_engine, check_python, check_secrets, check_stopped,
                                      check_templates, check_told, check_untimed, check_version, check_words)
from checks.viewer.page.why_kept import check_why_kept
from checks.viewer.page.windows import check_windows
from checks.viewer.page.wrong import check_edits
from viewer.database import raw_tables

# Parts that take the scripts that look whether a program must be built; they are played one after another. All others
# are played meanwhile, each in a process of its own.
BY_SCRIPTS = parts_of(check_templates, check_words, check_stopped, check_no_engine, check_python, check_version)
OTHERS = parts_of(
    check_malformed, check_pipes, check_names, check_changing, check_again, check_whole, check_terminal, check_beside,
    check_side, check_forms, check_narrowed, check_no_lists, check_list_of_loader, check_packed_lists, check_renames,
    check_last_names, check_files, check_secrets, check_told, check_untimed, check_late, check_hostile, check_methods,
    check_arguments, check_unnamed, check_services, check_manager, check_times, check_loader, check_packed,
    check_broken, check_timing, check_agreement, check_copies, check_bad_books, check_long_books, check_commands,
    check_sections, check_filled, check_packages, check_bits, check_stacks, check_growth, check_against, check_moments,
    check_windows, check_fillers, check_losers, check_power, check_parts, check_bars, check_strip, check_kept,
    check_floors, check_why_kept)


def names() -> list[str]:
    return [part.name for part in (*BY_SCRIPTS, *OTHERS)]


def check_parts(named: list[str], folder: pathlib.Path, room: pathlib.Path, fail: Fail) -> None:
    """Plays the parts of these names."""
    raw_tables.loader()
    built = built_programs(room, (folder / "audit").resolve())
    with side_by_side([part for part in OTHERS if part.name in named], built, room, fail):
        play([part for part in BY_SCRIPTS if part.name in named], folder, room, fail)


def judge(given: argparse.Namespace, room: pathlib.Path, fail: Fail) -> None:
    if given.browser:
        room = pathlib.Path(tempfile.mkdtemp(prefix="checks-view."))  # its pictures stay
        check_browser(programs(room, given.programs[0]), room, fail)
    elif given.pictures:
        make_pictures(programs(room, given.programs[0]), room)
    elif given.large:
        check_large(programs(room, given.programs[0]), room, fail)
    elif given.edits is not None:
        check_edits(built_programs(room, given.programs[0]), room, given.edits, fail)
    else:
        check_parts(given.cases, programs(room, given.programs[0]), room, fail)


if __name__ == "__main__":
    check(judge, names, browser=FLAG, large=FLAG, pictures=FLAG, edits={"nargs": "?", "const": ""})
