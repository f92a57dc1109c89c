"""Checks what is made of the tables of commands: help, completions, manual, and the recorder's words.

    checks/run options

What must hold for each of the six commands of the package:

- `--help` is answered in a checkout in which nothing is built, in less than a second of the processor, and builds
  nothing. It has each option once, and three examples at most, whose options are the command's.
- bash and fish offer these options and no others, after each word that comes first, if there are such. zsh reads its
  file.
- The page of the manual has them.
- The section of docs/ that the table names is there. Its page has the options; but of `./listing` only `--help` has.
- If `--version` is one of them, it says what viewer/version.sh does: all programs alike.
- The recorder takes its options, and its own `--help` is that of the script. At a word that is wrong it ends with
  status 64 and a line that names the word.

It needs no proved program. Of the recorder it builds only the file with the command line, with cc. It takes some three
seconds.
"""

import os
import pathlib
import re
import resource
import shutil
import subprocess

from checks.kit.checking import Fail, check, compare
from checks.kit.programs import PACKAGED, ROOT
from checks.kit.runs import answer, output_of
from commands import as_c, completions
from commands.all import NAMES, command as command_of
from commands.help import WIDEST, lines_of
from commands.option import HELP, Command
from packager import manual

RECORDER = ROOT / "recorder"
# What a command brings that is found by its name.
FOLDERS = "commands", "viewer", "crates", "recorder", "packager"

# The command line of the recorder, as a program of its own.
ONLY_WORDS = """#include "options.h"
int main(int count, char **words) { struct options options; options_read(&options, count, words); return 0; }
"""
OF_WORDS = "options", "trigger_words", "logcat", "common"


def compare_options(what: str, came: set[str], due: set[str], fail: Fail) -> None:
    if came != due:
        told = {"lacks": due - came, "has in vain": came - due}
        fail(f"{what} " + " and ".join(f"{how} {' '.join(sorted(words))}" for how, words in told.items() if words))


def options_in(text: str) -> set[str]:
    return set(re.findall(r"(?<![\w-])(--[a-z][a-z-]+|-o)\b", text))


def names_of(command: Command, verb: str | None = None) -> set[str]:
    return {option.name for option in command.options(verb)} | ({HELP.name} if not verb else set())


# ---- help


def bare_checkout(folder: pathlib.Path) -> pathlib.Path:
    """The files that git knows, and nothing that was built."""
    listed = output_of(["git", "-C", ROOT, "ls-files", "-z", "--cached", "--others", "--exclude-standard",
                        *map(str, PACKAGED_FILES), *FOLDERS])
    for name in filter(None, listed.split("\0")):
        if (ROOT / name).is_file():
            (folder / name).parent.mkdir(parents=True, exist_ok=True)
            shutil.copy2(ROOT / name, folder / name)
    return folder


PACKAGED_FILES = [path.relative_to(ROOT) for path in PACKAGED.values()]


def check_help(checkout: pathlib.Path, command: Command, fail: Fail) -> None:
    program = checkout / PACKAGED[f"binder-{command.name}"].relative_to(ROOT)
    before = resource.getrusage(resource.RUSAGE_CHILDREN)
    came = answer([program, "--help"], encoding="utf-8", env={**os.environ, "COLUMNS": str(WIDEST)}, timeout=60)
    after = resource.getrusage(resource.RUSAGE_CHILDREN)
    compare(f"{command.name} --help", came, (0, "".join(f"{line}\n" for line in lines_of(command, WIDEST)), ""), fail)
    seconds = after.ru_utime + after.ru_stime - before.ru_utime - before.ru_stime
    compare(f"{command.name} --help, in less than a second ({seconds:.2f} s)", seconds < 1, True, fail)
    heads = re.findall(r"^  (--[a-z-]+|-o)\b", came[1], re.MULTILINE)
    compare(f"{command.name} --help, the options", sorted(heads), sorted(it.name for it in command.options()), fail)
    for words, _ in command.examples:
        own = words.partition(" -- ")[0]
        compare_options(f"the example {words}", options_in(own) & names_of(command), options_in(own), fail)


# ---- completions


def offered_by_bash(script: pathlib.Path, program: str, words: str) -> set[str]:
    """What bash offers for a word that begins with -, by the function that is there for the program."""
    text = (f"source {script}; compopt() {{ :; }}; COMP_WORDS=({program} {words} -)\n"
            f"function=$(complete -p {program} | cut -d ' ' -f 3)\n"
            f"COMP_CWORD=$((${{#COMP_WORDS[@]}} - 1)); $function {program} - x; echo ${{COMPREPLY[*]}}")
    return options_in(output_of(["bash", "-c", text]))


def offered_by_fish(script: pathlib.Path, program: str, words: str) -> set[str]:
    text = f"source {script}; complete -C '{program} {words} --'; complete -C '{program} {words} -'"
    return {word for line in output_of(["fish", "--no-config", "-c", text]).splitlines()
            for word in [line.partition("\t")[0]] if word in options_in(word)}


def check_completions(room: pathlib.Path, command: Command, fail: Fail) -> None:
    program = f"binder-{command.name}"
    (room / "bash").write_text(completions.bash(), "utf-8")
    (room / f"{program}.fish").write_text(completions.fish(command.name), "utf-8")
    alone = names_of(command, "") if command.verbs else names_of(command)
    for verb in [it.name for it in command.verbs] or ["x"]:
        due = names_of(command, verb) if command.verbs else alone
        compare_options(f"bash for {program} {verb}", offered_by_bash(room / "bash", program, verb), due, fail)
        came = offered_by_fish(room / f"{program}.fish", program, verb)
        compare_options(f"fish for {program} {verb}", came, due | alone, fail)
    compare_options(f"bash for {program}", offered_by_bash(room / "bash", program, ""), alone, fail)


def check_zsh(room: pathlib.Path, fail: Fail) -> None:
    """zsh reads the file, and each option of a command stands in its part."""
    text = completions.zsh()
    (room / "zsh").write_text(text, "utf-8")
    compare("zsh -n", answer(["zsh", "-n", room / "zsh"], encoding="utf-8"), (0, "", ""), fail)
    for name in NAMES:
        part = re.search(rf"^  binder-{name}\)\n(.*?)^    ;;", text, re.MULTILINE | re.DOTALL)
        offered = set(re.findall(r"^ *'(?:\([^)]*\))?\*?(--[a-z-]+|-o)\b", part[1] if part else "", re.MULTILINE))
        compare_options(f"zsh for binder-{name}", offered, names_of(command_of(name)), fail)


# ---- pages


def plain(lines: str) -> str:
    """A page without the marks of roff."""
    return re.sub(r"\\f[BIR]", " ", lines).replace(r"\-", "-")


def check_manual(page: manual.Page, command: Command, fail: Fail) -> None:
    whole = plain(manual.made(page, "0", "2000-01-01"))
    told = whole.partition(".SH OPTIONS\n")[2].partition(".SH EXAMPLES\n")[0]
    due = {option.name for option in command.options()}
    came = set(re.findall(r"^ (--[a-z-]+|-o)\b", told, re.MULTILINE))
    compare_options(f"{page.name}({page.section})", came, due, fail)


def anchor_of(heading: str) -> str:
    return re.sub(r"[^\w\- ]", "", heading.lower()).strip().replace(" ", "-")


def check_pages(command: Command, fail: Fail) -> None:
    for part in command.parts:
        page, _, anchor = part.page.partition("#")
        path = ROOT / "docs" / page
        sections = manual.sections_of(page.removesuffix(".md")) if path.exists() else []
        anchors = {anchor_of(section.heading) for section in sections}
        compare(f"docs/{part.page} of {command.name}, {part.heading}", anchor in anchors, True, fail)
        if path.exists() and command.name != "listing":
            lacks = {it.name for it in part.options} - options_in(path.read_text("utf-8")) - {"--help", "--version"}
            compare(f"options of {command.name} that docs/{page} lacks", lacks, set(), fail)


# ---- --version


def check_version(program: pathlib.Path, fail: Fail) -> None:
    due = output_of([ROOT / "viewer/version.sh"])
    compare(f"{program.name} --version", output_of([program, "--version"]), due, fail)


# ---- the words of the recorder

WRONG = {"--bogus": "there is no option --bogus; record --help has them",
         "-x": "there is no option -x; record --help has them",
         "--redact -xy": "there is no option -xy; record --help has them", "--redact=1": "--redact takes no value",
         "--pid 1 --size": "--size takes a value; record --help says which",
         "--size 5": "--size takes a number from 65536 to 1073741824, not 5",
         "true": "true: what is no option comes after --, as the program that is recorded; record --help says more"}


def recorder_in(folder: pathlib.Path) -> pathlib.Path:
    (folder / "words.c").write_text(ONLY_WORDS, "utf-8")
    (folder / "option_names.h").write_text("".join(f"{line}\n" for line in as_c.lines()), "utf-8")
    sources = [folder / "words.c", *(RECORDER / f"{name}.c" for name in OF_WORDS)]
    output_of(["cc", "-std=gnu11", "-Wall", "-Wextra", "-Werror", "-pthread", f"-I{RECORDER}", f"-isystem{folder}",
               "-o", folder / "binder-record", *sources])
    return folder / "binder-record"


def check_recorder(room: pathlib.Path, fail: Fail) -> None:
    program = recorder_in(room)
    command = command_of("record")
    due = "".join(f"{line}\n" for line in lines_of(command, WIDEST, program="record"))
    compare("the recorder's own --help", output_of([program, "--help"]), due, fail)
    for option in command.options():
        words = [option.name, *(["x"] if option.value and not option.may_have_none else [])]
        ended = subprocess.run([program, *words], capture_output=True, encoding="utf-8")
        if option.name != "--version" and "there is no option" in ended.stderr:  # the script answers that one
            fail(f"the recorder does not take {option.name}")
    for wrong, told in WRONG.items():
        ended = subprocess.run([program, *wrong.split()], capture_output=True, encoding="utf-8")
        compare(f"{program.name} {wrong}", (ended.returncode, ended.stderr), (64, f"record: {told}\n"), fail)


# ---- all of it


def check_options(room: pathlib.Path, fail: Fail) -> None:
    (room / "bare").mkdir()
    checkout = bare_checkout(room / "bare")
    before = sorted(path for path in checkout.rglob("*") if "__pycache__" not in path.parts)
    for page in manual.PAGES:
        if page.name in PACKAGED:
            command = command_of(page.name.removeprefix("binder-"))
            check_help(checkout, command, fail)
            check_completions(room, command, fail)
            check_manual(page, command, fail)
            check_pages(command, fail)
            if "--version" in names_of(command):
                check_version(PACKAGED[page.name], fail)
    after = sorted(path for path in checkout.rglob("*") if "__pycache__" not in path.parts)
    compare("what --help built", after, before, fail)
    check_zsh(room, fail)
    check_recorder(room, fail)


if __name__ == "__main__":
    check(lambda _, room, fail: check_options(room, fail))
