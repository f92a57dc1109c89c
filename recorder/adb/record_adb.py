"""Records on a device that adb reaches: `record --adb`, whose words `record --help` has.

The recorder for the device's machine is put into a folder of its own there, with on_device.sh, which has it run. What
was recorded is fetched and compared; only then it is removed from the device. So whatever fails, it is in one of the
two places. A line says what was seen there after a failure, and names the command that fetches it.
"""

import contextlib
import os
import re
import shlex
import shutil
import signal
import subprocess
import sys
import threading
from types import FrameType
from typing import TYPE_CHECKING, Callable, Iterator, NamedTuple

import device
import fetch
import folder as folders
import kept_sets
import words
from connection import Connection, Lost, Nothing, Stopped, command_line, need_adb, on_device, the_device
from folder import OLDEST, Folder, Found, Gone
from next_command import view_command
from show import show
from told import ENDING, pass_on, progress, tell, tell_all, write

if TYPE_CHECKING:
    from live import Shown

LEAST_SPACE = 1 << 20  # bytes; with less, a recording begins nowhere
MOST_NAMED = 5  # the most names of files in a line


# ---- one recording


class Command(NamedTuple):
    """What was asked for, and where it is done."""

    record: str  # the name by which the user calls the script
    words: words.Words
    folder: Folder

    @property
    def serial(self) -> str:
        return self.folder.serial

    @property
    def to_fetch(self) -> str:
        out = [] if self.words.out == "capture" else ["-o", self.words.out]
        return command_line(self.record, "--adb", self.serial, "--fetch", *out)

    def on_device(self, what: str) -> str:
        """A call of the script on the device."""
        progress = "RECORD_PROGRESS=1 " if sys.stderr.isatty() and what == "record" else ""
        asked = [what, self.words.whose_names, self.words.collect or "nobody", *self.words.options]
        return f"{progress}sh on_device.sh {shlex.join(asked)}"


# ---- the folder on the device


def refuse_recording(command: Command, found: Found) -> None:
    """What is recorded there, or was, stays there."""
    folder = found.folder
    if folder.is_recording():
        raise Stopped(f"{command.serial} records already, into {folder.path}{found.begun}; to end that, and fetch it:"
                      f" {command.to_fetch}")
    if folder.has_recording():
        raise Stopped(f"{command.serial} has a recording in {folder.path} already; to fetch it: {command.to_fetch}")


def refuse_preparing(command: Command, found: Found) -> None:
    """What another command prepares stays there."""
    if not found.is_left():
        raise Stopped(f"another command prepares a recording in {found.folder.path} of {command.serial}{found.begun}:"
                      " wait until that has ended, or end it; what a killed command left is removed after"
                      f" {OLDEST // 60} minutes")


def take(command: Command) -> Command:
    """Makes the folder, so that it is this command's. What a killed command left there is removed."""
    said = ""
    for _ in range(3):
        connection, path, _ = command.folder
        made = folders.make(connection, path)
        if isinstance(made, Folder):
            return command._replace(folder=made)
        if found := folders.look(connection, path):
            with contextlib.suppress(Gone):  # its command has just removed it
                refuse_recording(command, found)
                refuse_preparing(command, found)
                found.folder.remove()
        said = made
    raise Stopped(f"{command.folder.path} can't be made on {command.serial}: {said}")


def put_script(command: Command) -> None:
    command.folder.put("on_device.sh", (device.HERE / "on_device.sh").read_bytes())


def put(command: Command, program: bytes) -> None:
    tell(f"putting the recorder ({len(program) / 1e6:.1f} MB) on {command.serial}")
    command.folder.put("record", program)
    put_script(command)
    command.folder.need_execution()
    tell(f"loading it into the kernel of {command.serial}")


def prepare(command: Command) -> Command:
    """Puts the recorder there. With --check it says what the device lacks; else it does so when it begins to record."""
    program = device.recorder_for(command.folder.connection).read_bytes()
    try:
        command = take(command)
        try:
            put(command, program)
            if command.words.check:
                check(command)
        except (Stopped, OSError):
            command.folder.remove()
            raise
        except KeyboardInterrupt as interrupt:
            command.folder.remove()
            raise Stopped("interrupted; nothing was recorded", 130) from interrupt
    except Lost as lost:
        raise Stopped(f"{lost}; nothing was recorded, and what is left in {command.folder.path} there is removed by the"
                      f" next {command_line(command.record, '--adb')}") from lost
    return command


def check(command: Command) -> None:
    options, _ = words.split_program(command.words.options)
    answer = command.folder.ask(f"./record --check -o {fetch.BEGIN} {shlex.join(options)}")
    tell_all(answer.errors, command.serial)
    for line in answer.text.splitlines():
        tell(f"{command.serial}: {line}")
    if answer.status:
        raise Stopped(f"{command.serial} can't be recorded")


# ---- recording while the connection holds


def tell_ending(serial: str) -> None:
    """What is on its way is waited for, and the driver's books are copied: that takes some seconds on a busy device."""
    write(progress(""))
    tell(ENDING.format(serial))


class Signals:
    """Until its end, SIGINT and SIGTERM are passed on to the recorder, as lines; after three it is given up."""

    def __init__(self, program: subprocess.Popen[bytes], tell_first: Callable[[], None]):
        self.program, self.tell_first, self.count = program, tell_first, 0
        self.before = {number: signal.signal(number, self.pass_on) for number in (signal.SIGINT, signal.SIGTERM)}

    def pass_on(self, number: int, _: FrameType | None) -> None:
        self.end_recording()

    def end_recording(self) -> None:
        self.count += 1
        if self.count > 2:
            self.program.kill()
            return
        if self.count == 1:
            self.tell_first()
        try:
            assert self.program.stdin
            self.program.stdin.write(b"\n")
            self.program.stdin.flush()
        except OSError:  # the connection is gone, which is seen elsewhere
            pass

    def end(self) -> None:
        for number, handler in self.before.items():
            signal.signal(number, handler)


def shown_of(command: Command) -> "Shown | None":
    """What is shown meanwhile, if anything is. A table of methods that is none ends the program, before anything is put
    on the device."""
    if not command.words.live and not command.words.methods:
        return None
    from live import Shown
    shown = Shown(command.words, command.serial)
    return shown if command.words.live else None


def record(command: Command, show: "Shown | None") -> None:
    """Records until the recorder has ended, or the connection is lost."""
    with subprocess.Popen(command.folder.words(command.on_device("record")), stdin=subprocess.PIPE,
                          stdout=subprocess.PIPE if show and show.is_drawn else None, stderr=subprocess.PIPE,
                          start_new_session=True) as program:
        assert program.stderr
        signals = Signals(program, lambda: show.say_ending() if show else tell_ending(command.serial))
        if show:
            show.until_end(program, signals.end_recording)
        else:
            reader = threading.Thread(target=pass_on, args=(program.stderr.fileno(), command.serial))
            reader.start()
            program.wait()
            reader.join()
        signals.end()
    if command.folder.is_recording():
        raise Stopped(f"the connection to {command.serial} has ended")


# ---- the end of a recording


def status_of(command: Command) -> int:
    """The status of the recorder. It is not there if the device was full or ended meanwhile."""
    found = re.fullmatch("([0-9]{1,3})\n", command.folder.ask("cat state").text)
    return int(found[1]) if found else 1


def tell_others(command: Command, names: list[str]) -> None:
    """Names files that are not fetched. PROGRAM may have made them, or a device that means harm."""
    if names:
        more = f" and {len(names) - MOST_NAMED} more" * (len(names) > MOST_NAMED)
        tell(f"{command.serial} has files that no recording makes, and they are not fetched:"
             f" {', '.join(map(repr, names[:MOST_NAMED]))}{more}")


def remove_fetched(command: Command) -> None:
    try:
        command.folder.remove()
    except Lost as lost:
        tell(f"{lost}; {command.folder.path} may still be there, with what was fetched; to remove it:"
             f" {on_device(command.serial, 'rm', '-r', command.folder.path)}")


def fetch_sets(command: Command) -> list[list[str]]:
    """Fetches the sets that were kept, and names the command for each. Returns the paths of the files of each."""
    found = []
    for paths in kept_sets.fetch_sets(command.folder, command.words.out):
        size = sum(os.path.getsize(path) for path in paths)
        tell(f"a set that was kept on {command.serial}, {len(paths)} files, {size} bytes, fetched; next:"
             f" {view_command(command.record, paths)}")
        found.append(paths)
    return found


def finish(command: Command) -> int:
    """Fetches what was recorded, removes it from the device, and names the next command."""
    folder = command.folder
    status = status_of(command)
    if not folder.has_recording():
        folder.remove()
        raise Nothing(f"nothing was recorded on {command.serial}", status or 1)
    if (space := folder.space()) is not None and space < LEAST_SPACE:
        tell(f"{command.serial} is full, with {space} bytes free in {folder.path}: the recording ends early")
    fetch_sets(command)
    files, others = fetch.listed(folder)
    tell_others(command, others)
    tell(f"fetching {len(files)} files, {sum(file.size for file in files) / 1e6:.1f} MB, from {command.serial}")
    paths = fetch.fetch(folder, files, command.words.out)
    for path in paths:
        if said := fetch.cut_zeros(path):
            tell(said)
    remove_fetched(command)
    size = sum(os.path.getsize(path) for path in paths)
    fetched = f"{len(paths)} files, {size} bytes fetched from {command.serial}"
    if command.words.view:
        tell(fetched)
        return show(command.record, paths, command.words.methods) or status
    tell(f"{fetched}; next: {view_command(command.record, paths)}")
    return status


def do(command: Command, what: str) -> None:
    """Has the script on the device do this, and passes on what the recorder said, without its progress."""
    ended = subprocess.run(command.folder.words(command.on_device(what)), stdin=subprocess.DEVNULL,
                           stderr=subprocess.PIPE)
    tell_all(ended.stderr, command.serial)


def begin_detached(command: Command) -> int:
    do(command, "detach")
    if not command.folder.is_recording():
        status = status_of(command)
        command.folder.remove()
        raise Nothing(f"nothing is recorded on {command.serial}", status or 1)
    tell(f"{command.serial} records, also without the connection; to end that, and fetch it: {command.to_fetch}")
    return 0


def fetch_recording(command: Command) -> int:
    found = folders.look(command.folder.connection, command.folder.path)
    if not found:
        raise Nothing(f"{command.serial} has no recording in {command.folder.path}")
    if not found.folder.is_recording() and not found.folder.has_recording():
        refuse_preparing(command, found)
        found.folder.remove()
        raise Nothing(f"{command.serial} has no recording in {command.folder.path}")
    command = command._replace(folder=found.folder)
    with keeping(command):
        if command.folder.is_recording():
            tell_ending(command.serial)
        if command.folder.ask("[ -e on_device.sh ]").status:  # a recorder of long ago had none
            put_script(command)
        do(command, "end")
        return finish(command)


def keep_recording(command: Command) -> int:
    """Has the recorder keep its files, and fetches the sets that it has kept. The recording goes on."""
    found = folders.look(command.folder.connection, command.folder.path)
    if not found or not found.folder.is_recording():
        raise Nothing(f"{command.serial} records nothing now")
    command = command._replace(folder=found.folder)
    answer = command.folder.ask(f"./record --keep -o {fetch.BEGIN}")
    tell_all(answer.errors, command.serial)
    with keeping(command):
        sets = fetch_sets(command)
    if not sets:
        raise Nothing(f"nothing was kept on {command.serial}, which still records")
    tell(f"{command.serial} still records; to end that, and fetch it: {command.to_fetch}")
    return (show(command.record, sets[-1], command.words.methods) if command.words.view else 0) or answer.status


# ---- failures


def what_is_there(command: Command) -> str:
    """What is on the device after a failure, as far as it can be seen, and what to do."""
    folder = command.folder
    try:
        if folder.is_recording():
            return f"{command.serial} still records; to end that, and fetch it: {command.to_fetch}"
        if folder.has_recording():
            return f"what was recorded stays in {folder.path} of {command.serial}; to fetch it: {command.to_fetch}"
        folder.remove()
        return f"nothing was recorded on {command.serial}"
    except Lost:
        return f"when {command.serial} is back, this fetches what was recorded there: {command.to_fetch}"


@contextlib.contextmanager
def keeping(command: Command) -> Iterator[None]:
    """Once something is recorded, each failure leaves it where it is, and says so, after a look."""
    try:
        yield
    except Nothing:
        raise
    except (Stopped, Lost, OSError) as failure:
        raise Stopped(f"{failure_line(failure)}; {what_is_there(command)}") from failure
    except KeyboardInterrupt as interrupt:
        raise Stopped(f"interrupted; {what_is_there(command)}", 130) from interrupt


def failure_line(failure: Exception) -> str:
    if isinstance(failure, OSError):
        return f"{failure.filename or 'adb'}: {failure.strerror}"
    return str(failure)


# ---- the command


def run(command: Command) -> int:
    if command.words.fetch:
        return fetch_recording(command)
    if command.words.keep:
        return keep_recording(command)
    shown = shown_of(command)
    command = prepare(command)
    if command.words.check:
        command.folder.remove()
        return 0
    with keeping(command):
        if command.words.detach:
            return begin_detached(command)
        record(command, shown)
        return finish(command)


def command_of(name: str, given: list[str]) -> Command:
    asked = words.read(given)
    words.refuse_files(asked)
    need_adb()
    connection = Connection(the_device(asked.serial))
    device.become_root(connection)
    return Command(name, asked, Folder(connection, folders.path_on(connection)))


def as_typed(record: str) -> str:
    """The script by the name that the user typed, who may have had it found in PATH: then it knows its whole path."""
    name = os.path.basename(record)
    return name if shutil.which(name) == record else record


def main(name: str, given: list[str]) -> int:
    signal.signal(signal.SIGTERM, signal.default_int_handler)
    try:
        return run(command_of(as_typed(name), given))
    except (Stopped, Lost, OSError) as failure:
        tell(failure_line(failure))
        return failure.status if isinstance(failure, Stopped) else 1
    except KeyboardInterrupt:
        tell("interrupted")
        return 130
