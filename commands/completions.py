"""Completions of the commands for bash, zsh and fish, made of their tables."""

from typing import Iterator

from commands.all import NAMES, command as command_of
from commands.option import FILE, FOLDER, HELP, PROCESS, Command, Option
from viewer.program_names import as_packed

# The command whose words after -- are a command of its own.
RUNS_ANOTHER = "record"
FILES = {"audit": "part of the capture", "fleet": "file", "listing": "part of the capture",
         "methods": ".aidl, .hal or C++ file, or folder", "view": "part of the capture"}


def options_of(command: Command, verb: str | None = None) -> list[Option]:
    """The options, or those of a verb, with --help, which each command takes."""
    options = command.options(verb)
    return options if verb or HELP in options else [*options, HELP]


def names(options: list[Option]) -> str:
    return " ".join(option.name for option in options)


def quoted(text: str) -> str:
    """A text in single quotes for a shell."""
    return "'" + text.replace("'", "'\\''") + "'"


# ---- bash


BASH_BEGIN = """# Completions of {commands} for bash.

# Offers these words.
_binder_words() {{ # WORD CHOICES
  mapfile -t COMPREPLY < <(compgen -W "$2" -- "$1")
}}

# An option if one is begun, or else a file.
_binder_options() {{ # WORD CHOICES
  if [[ $1 == -* ]]; then _binder_words "$1" "$2"; else compopt -o default; fi
}}
"""


def bash_value(option: Option) -> str:
    """What completes the value of an option. A file is what bash completes by itself."""
    if isinstance(option.offers, tuple):
        return f"_binder_words \"$2\" '{' '.join(option.offers)}'" if option.offers else ":"
    return "mapfile -t COMPREPLY < <(compgen -A directory -- \"$2\")" if option.offers == FOLDER else \
        "compopt -o default" if option.offers == FILE else ":"


def bash_cases(options: list[Option]) -> Iterator[str]:
    """The cases of the word before, for options that have a value. Those with the same completion are one case."""
    cases: dict[str, list[str]] = {}
    for option in options:
        if option.value and not option.may_have_none:
            cases.setdefault(bash_value(option), []).append(option.name)
    for value, those in cases.items():
        yield f"    {' | '.join(those)}) {value} ;;"


def bash_of(command: Command) -> Iterator[str]:
    yield from ("", f"_binder_{command.name}() {{ # COMMAND WORD BEFORE", "  COMPREPLY=()")
    if command.name == RUNS_ANOTHER:
        yield from ("  local word", "  for word in \"${COMP_WORDS[@]:1:COMP_CWORD > 1 ? COMP_CWORD - 2 : 0}\"; do",
                    "    if [[ $word == -- ]]; then compopt -o default && return; fi", "  done")
    if command.verbs:
        first = " ".join([*(verb.name for verb in command.verbs), names(options_of(command, ""))])
        yield f"  if ((COMP_CWORD == 1)); then _binder_words \"$2\" '{first}' && return; fi"
    yield "  case $3 in"
    if command.name == RUNS_ANOTHER:
        yield "    --) mapfile -t COMPREPLY < <(compgen -c -- \"$2\") ;;"
    yield from bash_cases(options_of(command))
    if command.verbs:
        yield from ("    *)", "      case ${COMP_WORDS[1]} in")
        for verb in command.verbs:
            yield f"        {verb.name}) _binder_options \"$2\" '{names(options_of(command, verb.name))}' ;;"
        yield from ("      esac", "      ;;")
    else:
        more = " --" if command.name == RUNS_ANOTHER else ""
        yield f"    *) _binder_options \"$2\" '{names(options_of(command))}{more}' ;;"
    yield from ("  esac", "}", f"complete -F _binder_{command.name} binder-{command.name}")


def bash() -> str:
    commands = ", ".join(f"binder-{name}" for name in NAMES)
    return as_packed("\n".join([BASH_BEGIN.format(commands=commands).rstrip("\n"),
                                *(line for name in NAMES for line in bash_of(command_of(name)))]) + "\n")


# ---- zsh


def in_zsh(text: str) -> str:
    """A text in the words of _arguments, where some signs end it."""
    return "".join(f"\\{sign}" if sign in "[]:\\" else sign for sign in text)


ZSH_OFFERS = {FILE: "_files", FOLDER: "_files -/", PROCESS: "_pids"}


def zsh_value(option: Option) -> str:
    """The values of an option, each with what completes it."""
    offers = ZSH_OFFERS[option.offers] if isinstance(option.offers, str) else \
        f"({' '.join(map(in_zsh, option.offers))})" if option.offers else ""
    begin = "::" if option.may_have_none else ":"
    return "".join(f"{begin}{in_zsh(value.lower())}:{offers}" for value in option.values)


def zsh_option(option: Option, options: list[Option]) -> str:
    others = [it for it in options if option.one_of and it.one_of == option.one_of and it != option]
    without = "(- *)" if option.name in ("--help", "--version") else \
        f"({' '.join('*' * it.many + it.name for it in others)})" if others else ""
    equal = "=-" if option.value.startswith("[=") else ""
    many = "*" if option.many and not others else ""
    return quoted(f"{without}{many}{option.name}{equal}[{in_zsh(option.summary)}]{zsh_value(option)}")


def zsh_arguments(options: list[Option], more: list[str], indent: str) -> Iterator[str]:
    lines = [zsh_option(option, options) for option in options] + more
    yield f"{indent}_arguments \\"
    yield from (f"{indent}  {line} \\" for line in lines[:-1])
    yield f"{indent}  {lines[-1]}"


def zsh_of(command: Command) -> Iterator[str]:
    yield f"  binder-{command.name})"
    files = [quoted(f"*:{FILES[command.name]}:_files")] if command.name in FILES else []
    if command.name == RUNS_ANOTHER:
        yield from ("    local at=${words[(i)--]}", "    if ((at < CURRENT)); then", "      shift $at words",
                    "      ((CURRENT -= at))", "      _normal", "      return", "    fi")
    if command.verbs:
        yield from ("    if ((CURRENT == 2)); then", "      local -a verbs=(")
        yield from (f"        {quoted(f'{in_zsh(verb.name)}:{in_zsh(verb.summary)}')}"
                    for verb in command.verbs)
        yield from (f"        {quoted(f'{option.name}:{in_zsh(option.summary)}')}"
                    for option in options_of(command, ""))
        yield from ("      )", "      _describe command verbs", "    fi", "    case $words[2] in")
        for verb in command.verbs:
            yield f"      {verb.name})"
            yield from zsh_arguments(options_of(command, verb.name), ["':command:'", *files], "        ")
            yield "        ;;"
        yield "    esac"
    else:
        yield from zsh_arguments(options_of(command), files, "    ")
    yield "    ;;"


def zsh() -> str:
    commands = [f"binder-{name}" for name in NAMES]
    heads = [f"#compdef {' '.join(commands)}", f"# Completions of {', '.join(commands)} for zsh."]
    return as_packed("\n".join([*heads, "",
                                "case $service in", *(line for name in NAMES for line in zsh_of(command_of(name))),
                                "esac"]) + "\n")


# ---- fish


FISH_OFFERS = {FILE: "-rF", FOLDER: "-xa '(__fish_complete_directories)'", PROCESS: "-xa '(__fish_complete_pids)'"}


def in_fish(text: str) -> str:
    """A text in single quotes for fish."""
    return "'" + text.replace("\\", "\\\\").replace("'", "\\'") + "'"


def fish_option(command: Command, option: Option) -> str:
    verbs = [verb for part in command.parts if option in part.options for verb in part.verbs]
    when = [f"-n '__fish_seen_subcommand_from {' '.join(verbs)}'"] if verbs else []
    letters = f"-l {option.name[2:]}" if option.name.startswith("--") else f"-s {option.name[1:]}"
    offers = [] if not option.value or option.may_have_none else [
        FISH_OFFERS[option.offers] if isinstance(option.offers, str) else
        f"-xa {in_fish(' '.join(option.offers))}" if option.offers else "-x"]
    return " ".join([f"complete -c binder-{command.name}", *when, letters, *offers, f"-d {in_fish(option.summary)}"])


def fish_of(command: Command) -> Iterator[str]:
    for verb in command.verbs:
        yield (f"complete -c binder-{command.name} -n __fish_use_subcommand -fa {verb.name}"
               f" -d {in_fish(verb.summary)}")
    yield from (fish_option(command, option) for option in options_of(command))
    if command.name == RUNS_ANOTHER:
        yield (f"complete -c binder-{command.name} -n 'contains -- -- (commandline -opc)' -xa"
               " '(__fish_complete_subcommand --commandline)'")


def fish(name: str) -> str:
    """Those of one command: fish looks for a file by its name."""
    return as_packed("\n".join([f"# Completions of binder-{name} for fish.", *fish_of(command_of(name))]) + "\n")
