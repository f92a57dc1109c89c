"""What processes are called: the system's name has at most 15 bytes, and a command line may have more. And which ones
Android's zygote forked, by what they are called."""

import re

# What an app of Android is called until it has got its own name.
NOT_YET = "<pre-initialized>"

# What the zygote is called, and what it forks before that has its own name; and system_server, which it forks, too.
OF_ZYGOTE = {"zygote", "zygote64", "webview_zygote", "app_zygote", "usap32", "usap64", NOT_YET, "system_server"}

# The most bytes of a name that the system keeps.
SHORT = 15


def first_word(command: str) -> str:
    """The first word of a command line, without its folder. A program may write over its command line: then it is what
    it calls itself, with spaces, and mostly no path."""
    word = command.partition("\0")[0].strip()
    return word.split(" ")[0].rpartition("/")[2] if word.startswith(("/", "./", "../")) else word


def long_name(name: str | None, command: str | None) -> str | None:
    """The name of a process. Its command line has it whole where the system has only its first 15 bytes, or as on
    Android its last ones; and where a program wrote its name over its command line. Else the system's name is what it
    gave itself."""
    word = first_word(command or "")
    if not word or word == NOT_YET:
        return name
    if not name:
        return word
    is_cut = len(name.encode()) >= SHORT and (word.startswith(name) or word.endswith(name))
    is_path = (command or "").startswith(("/", "./", "../"))
    return word if is_cut or not is_path else name


def is_not_yet_named(command: str) -> bool:
    """Whether a process with this command line is the zygote, or has come of it just now; or is system_server."""
    return first_word(command) in OF_ZYGOTE


def is_app(name: str | None, command: str) -> bool:
    """Whether a process is an app that has its name: the zygote writes that over the whole command line, and gives the
    system the last bytes of it."""
    return bool(name) and "." in command and not re.search("[\\0 /]", command) and command[-SHORT:] == name
