"""Stacks of a side list that is made by hand, on the page and in the database."""

import itertools
import os
import pathlib
import random
import re
import shutil
import sqlite3
import subprocess
import sys
import time
from typing import NamedTuple

from checks.kit.checking import Fail, compare
from checks.kit.programs import DRIVER
from checks.viewer.page.common import AT_END, stored, texts_stored, view, written
from checks.viewer.page.reports import check_harmless
from checks.viewer.sessions.session import Session
from viewer.database import symbols

# Two functions of a program, one of which is put into the other, and one that is called by a hostile name.
SOURCE = """
int volatile kept;
static inline __attribute__((always_inline)) void keep_reply(int reply)
{
	kept = kept * 3 + reply;
}
__attribute__((noinline)) void refresh_settings(int reply)
{
	keep_reply(reply);
}
__attribute__((noinline)) void other(int reply)
{
	kept += reply;
}
int main(int count, char **words)
{
	(void)words;
	refresh_settings(count);
	other(count);
	return 0;
}
"""

HOSTILE = "<script>window.bad=1</script>\u202eevil"


class Program(NamedTuple):
    path: pathlib.Path
    build_id: str
    inside: dict[str, int]      # an address in each function


def built_program(room: pathlib.Path) -> Program:
    folder = room / "symbols"
    folder.mkdir()
    (room / "leak.c").write_text(SOURCE, "utf-8")
    path = folder / "leak"
    subprocess.run(["cc", "-O1", "-g", "-Wl,--build-id", "-o", path, "leak.c"], cwd=room, check=True)
    subprocess.run(["objcopy", "--redefine-sym", f"other={HOSTILE}", path], check=True)
    names = subprocess.run(["nm", path], check=True, capture_output=True, encoding="utf-8").stdout
    inside = {name: int(address, 16) + 1 for address, name in re.findall(r"^(\w+) [tT] (.*)$", names, re.MULTILINE)}
    return Program(path, symbols.build_id_of(str(path)) or "", inside)


def calls_of(folder: pathlib.Path, room: pathlib.Path) -> list[int]:
    """The frames of the calls of the scenario `replies` whose replies are never freed."""
    subprocess.run([folder / "view", *stored("replies"), "--database", "plain.db", "--groups"], cwd=room, check=True,
                   stdout=subprocess.DEVNULL)
    return [seq for seq, in sqlite3.connect(room / "plain.db").execute(
        "SELECT c.seq FROM finding f JOIN raw_delivery d USING (place) JOIN raw_call c ON c.place = d.call"
        " WHERE f.section = 'buffers' ORDER BY f.place")]


# Where the program is mapped in two processes, and a file without symbols and code without a file in the first.
FIRST, SECOND, PLAIN, JIT = 0x7F0000000000, 0x7F1111110000, 0x7F2222220000, 0x7F3333330000
DEEP = 20
NUMBERS = itertools.count()


def side_with(program: Program, seqs: list[int], path: str, more: str = "") -> str:
    """The side list of `replies` with stacks: the first four calls have one, the fifth has the same of another process,
    and the sixth has another."""
    def pcs(base: int) -> str:
        own = [base + program.inside[name] for name in ("refresh_settings", "main")]
        return ",".join(f"0x{pc:x}" for pc in [*own, *(PLAIN + 0x100 * at for at in range(1, DEEP - 1))])
    lines = [f"map {memory} pid=1 start=0x{base:x} end=0x{base + 2**20:x} offset=0x0 address=0x0"
             f" build-id={program.build_id} name={path}" for memory, base in ((1, FIRST), (2, SECOND))]
    lines += [f"map {memory} pid=1 start=0x{PLAIN:x} end=0x{PLAIN + 2**20:x} offset=0x5000 address=- build-id=-"
              f" name=/lib/libplain.so" for memory in (1, 2)]
    lines += [f"map 1 pid=1 start=0x{JIT:x} end=0x{JIT + 4096:x} offset=0x0 address=- build-id=- name="]
    lines += [f"stack 1 memory=1 pid=1 pcs={pcs(FIRST)}", f"stack 2 memory=2 pid=1 pcs={pcs(SECOND)}",
              f"stack 3 memory=1 pid=1 pcs=0x{FIRST + program.inside[HOSTILE]:x},0x{JIT + 8:x},0x99,0xffffffffffffffff"]
    lines += [f"call {seq} stack={stack}" for seq, stack in zip(seqs, (1, 1, 1, 1, 2, 3), strict=True)]
    lines += [f"unstacked 7 what=ring-full from={seqs[0]} after={seqs[-1]}", *([more] if more else [])]
    _, side = texts_stored("replies")
    head, end, rest = side.rpartition("\n" + side.splitlines()[-1])
    return head + "".join(f"\n1 {line}" for line in lines) + end + rest


def shown_with(folder: pathlib.Path, room: pathlib.Path, side: str, *words: object,
               tools: tuple[str, ...] | None = None) -> tuple[int, str, pathlib.Path]:
    """Status, standard error and page of a side list; `tools` are the only programs that are in PATH."""
    number = next(NUMBERS)
    (room / f"list-{number}.side").write_text(side, "utf-8")
    shown, environment = room / f"page-{number}.html", dict(os.environ)
    if tools is not None:
        there = room / f"tools-{number}"
        there.mkdir()
        for name in ("sh", *tools):
            (there / name).symlink_to(shutil.which(name) or "/nonexistent")
        environment["PATH"] = str(there)
    ended = subprocess.run([sys.executable, folder / "view", DRIVER / "replies/capture-1.cap", "--side",
                            f"list-{number}.side", "-o", shown, "--database", room / f"made-{number}.db",
                            *map(str, words)], cwd=room, env=environment, capture_output=True,
                           encoding="utf-8", timeout=120)
    return ended.returncode, AT_END.sub("", ended.stderr), shown


def text_of(shown: pathlib.Path) -> str:
    """The text of a page as it is read: a name and what follows it are not torn apart."""
    return re.sub(r"<[^>]*>", "", shown.read_text("utf-8")) if shown.exists() else ""


def open_frames(text: str) -> list[int]:
    """How many functions each list of a page has."""
    return [one.count("<li>") for one in re.findall(r'<ol class="stack".*?</ol>', text, re.DOTALL)]


def check_page(folder: pathlib.Path, room: pathlib.Path, program: Program, seqs: list[int], fail: Fail) -> None:
    """Alike stacks of two processes are one; what is beyond twelve functions, and the other stacks, are folded."""
    side = side_with(program, seqs, "/system/lib64/libleak.so")
    status, told, shown = shown_with(folder, room, side)
    compare("stacks: status", (status, told), (0, ""), fail)
    if status:
        return
    text, page = text_of(shown), shown.read_text("utf-8")
    compare("stacks: lists, and how many functions they have", open_frames(page), [12, DEEP - 12, 4], fail)
    due = ["the call that it answers; 5 of 6 have it:", "the call that it answers; 1 of 6 have it",
           f"libleak.so+0x{program.inside['refresh_settings']:x}", "libplain.so+0x5100", f"{DEEP - 12} more frames",
           f"0x{JIT + 8:x}, code in no file", "0x99, not mapped", "0xffffffffffffffff, not mapped",
           "Stacks that the recorder does not have: 7 ring-full.", "Files that the stacks are in"]
    compare("stacks: what the page does not say", [one for one in due if one not in text], [], fail)
    compare("stacks: names without symbols", "refresh_settings" in text, False, fail)
    plain = sqlite3.connect(room / "plain.db").execute("SELECT verdict, title, path, n, rules FROM finding_group")
    made = sqlite3.connect(room / "made-0.db")
    compare("stacks: groups", made.execute("SELECT verdict, title, path, n, rules FROM finding_group").fetchall(),
            plain.fetchall(), fail)
    compare("stacks: frames in the database", made.execute(
        "SELECT stack, count(*), sum(path ISNULL), max(address) FROM stack GROUP BY 1").fetchall(),
        [(1, DEEP, 0, 0x5000 + 0x100 * (DEEP - 2)), (2, DEEP, 0, 0x5000 + 0x100 * (DEEP - 2)),
         (3, 4, 2, max(program.inside[HOSTILE], 8))], fail)


def check_inner(folder: pathlib.Path, room: pathlib.Path, program: Program, seqs: list[int], fail: Fail) -> None:
    """The functions of libbinder are folded, and the first other one is shown first."""
    for path, lists in (("/system/lib64/libbinder.so", [2, 12, DEEP - 14, 4]),
                        ("/system/lib64/libbinder_ndk.so", [2, 12, DEEP - 14, 4]),
                        ("/system/lib64/libc.so", [12, DEEP - 12, 4]),
                        ("/system/lib64/libbinder.sound", [12, DEEP - 12, 4])):
        status, told, shown = shown_with(folder, room, side_with(program, seqs, path))
        compare(f"{path}: status", (status, told), (0, ""), fail)
        compare(f"{path}: how many functions the lists have", open_frames(shown.read_text("utf-8")), lists, fail)
        compare(f"{path}: the folded ones", "2 inner frames, of libbinder and what it calls" in text_of(shown),
                "binder" in path and "sound" not in path, fail)


def check_symbols(folder: pathlib.Path, room: pathlib.Path, program: Program, seqs: list[int], fail: Fail) -> None:
    """A file with the build-id names functions, by either program, also what was put into another one. Another file of
    that name names none."""
    side = side_with(program, seqs, "/system/lib64/libleak.so")
    by_id = room / "by-id/.build-id" / program.build_id[:2]
    by_id.mkdir(parents=True)
    subprocess.run(["objcopy", "--only-keep-debug", program.path, by_id / f"{program.build_id[2:]}.debug"], check=True)
    other = room / "other"
    other.mkdir()
    (room / "other.c").write_text(SOURCE.replace("* 3", "* 5"), "utf-8")
    subprocess.run(["cc", "-O1", "-g", "-Wl,--build-id", "-o", other / "leak", "other.c"], cwd=room, check=True)
    due = ["keep_reply inlined in the next, leak.c:5, libleak.so", "refresh_settings leak.c:9, libleak.so",
           "libplain.so+0x5100"]
    for symbols_in, tools in ((program.path.parent, None), (room / "by-id", None), (by_id.parent, ("addr2line",)),
                              (program.path.parent, ("addr2line",))):
        what = f"symbols in {symbols_in.name}, {tools}"
        status, told, shown = shown_with(folder, room, side, "--symbols", symbols_in, tools=tools)
        compare(f"{what}: status", (status, told), (0, ""), fail)
        text = text_of(shown)
        compare(f"{what}: what is not named", [one for one in due if one not in text], [], fail)
        compare(f"{what}: how many have it", "5 of 6 have it" in text, True, fail)
    missing = ("view: llvm-symbolizer and addr2line are missing, so functions have no names; this installs one:"
               " apt-get install llvm\n")
    for symbols_in, tools, line in ((other, None, ""), (program.path.parent, (), missing)):
        status, told, shown = shown_with(folder, room, side, "--symbols", symbols_in, tools=tools)
        compare(f"symbols in {symbols_in.name}, {tools}", (status, told, "refresh_settings" in text_of(shown)),
                (0, line, False), fail)
    status, told, _ = shown_with(folder, room, side, "--symbols", "no-folder")
    compare("symbols in no folder", (status, told), (4, "view: no-folder: No such file or directory\n"), fail)


def check_hostile_stacks(folder: pathlib.Path, room: pathlib.Path, program: Program, seqs: list[int],
                         fail: Fail) -> None:
    """Names of files and functions from a stranger run nothing."""
    path = "/</ol></details>/<img src=x onerror=bad()>\u202e" + "a" * 2**16
    status, told, shown = shown_with(folder, room, side_with(program, seqs, path), "--symbols", program.path.parent)
    compare("hostile stacks: status", (status, told), (0, ""), fail)
    text = shown.read_text("utf-8") if shown.exists() else ""
    check_harmless("hostile stacks", text, fail)
    compare("hostile stacks: the name is there", "&lt;script&gt;window.bad=1" in text, True, fail)


def check_odd_lines(folder: pathlib.Path, room: pathlib.Path, program: Program, seqs: list[int], fail: Fail) -> None:
    """Addresses at both ends of what there may be. A line that is not valid is named."""
    far = "0x7fffffffffffffff"
    odd = (f"map 9 pid=1 start=0x8000000000000000 end={far} offset={far} address={far} build-id=- name=x\n"
           f"1 stack 9 memory=9 pid=1 pcs={far},0x8000000000000001\n1 call {seqs[0]} stack=9")
    status, told, shown = shown_with(folder, room, side_with(program, seqs, "/x", odd))
    compare("addresses at both ends", (status, told, shown.exists()), (0, "", True), fail)
    for wrong in ("stack x memory=1 pid=1 pcs=0x1", "stack 9 memory=1 pid=1 pcs=1", "stack 9 memory=1 pid=1",
                  "stack 9 memory=1 pid=1 pcs=0x12345678901234567", "call 9 stack=no", "call 9",
                  "map 1 pid=1 start=0x1 end=0x2 offset=0x0 address=- build-id=../.. name=x",
                  "map 1 pid=1 start=0x1 end=0x2 offset=0x0 build-id=- name=x", "unstacked 1 from=1 after=2"):
        status, told, _ = shown_with(folder, room, side_with(program, seqs, "/x", wrong))
        word = wrong.split()[0]
        compare(f"the line {wrong}", (status, f"the line '{word}' at 1 is not valid" in told), (4, True), fail)


def check_damaged(room: pathlib.Path, program: Program, fail: Fail) -> None:
    """A damaged file of symbols has no build-id, or some; none takes long."""
    data, chance, began = program.path.read_bytes(), random.Random(7), time.monotonic()
    path, found = room / "damaged", 0
    for number in range(400):
        made = bytearray(data[:chance.randrange(len(data))] if number % 2 else data)
        for _ in range(chance.randrange(1, 40)):
            if made:
                made[chance.randrange(min(len(made), 1024))] = chance.choice((0, 1, 0x7F, 0xFF, chance.randrange(256)))
        path.write_bytes(made)
        found += symbols.build_id_of(str(path)) == program.build_id
    compare("damaged symbols: some build-ids are found, and not all", 0 < found < 400, True, fail)
    compare("damaged symbols: seconds", time.monotonic() - began < 20, True, fail)
    table = bytearray(data[:64]) + b"\4\0\0\0" * 2**16
    table[32:40], table[54:58] = (64).to_bytes(8, "little"), b"\1\0\xff\xff"
    path.write_bytes(table)
    compare("headers of one byte", symbols.build_id_of(str(path)), None, fail)


def check_recorded(folder: pathlib.Path, room: pathlib.Path, fail: Fail) -> None:
    """Recorded stacks: of a program with frame pointers the function is named that keeps what it gets, and which other
    one called it. Of one without them only the C library's function is there."""
    due = {"forgetful": (["refresh_settings forgetful.c, scenarios.framed", "1 of 6 have it:", "5 of 6 have it",
                          "the call whose reply gave the handle; 1 of 1 have it:", "find_service forgetful.c"], 12),
           "forgetful-frameless": (["libc.so.6+0xfdd6b", "6 of 6 have it:"], 1)}
    for name, (texts, most) in due.items():
        shown = room / f"{name}.html"
        view(folder, room, *stored(name), "-o", shown, "--symbols", DRIVER / name)
        compare(f"{name}: what its page does not say", [one for one in texts if one not in text_of(shown)], [], fail)
        compare(f"{name}: the most functions of a stack", max(open_frames(shown.read_text("utf-8"))), most, fail)


def play_freed(program: Program, refreshed: int, printed: int) -> Session:
    """Four replies to one code are never freed; refresh_settings asked for all of them. Others are freed that it asked
    for, and some that another function asked for: it is called by the hostile name. So are such of another process, and
    a reply to another code."""
    s = Session()
    service, client = s.two()
    other = s.process(300, "other")
    s.tell(f"map 1 pid=200 start=0x{FIRST:x} end=0x{FIRST + 2**20:x} offset=0x0 address=0x0"
           f" build-id={program.build_id} name=/lib/libleak.so")
    s.tell(f"map 1 pid=200 start=0x{PLAIN:x} end=0x{PLAIN + 2**20:x} offset=0x0 address=- build-id=- name=/libplain.so")
    for stack, name in (1, "refresh_settings"), (2, HOSTILE):
        within = [PLAIN + 0x100, *(FIRST + program.inside[one] for one in (name, "main")), 0x90 + stack]
        s.tell(f"stack {stack} memory=1 pid=200 pcs=" + ",".join(f"0x{pc:x}" for pc in within))
    for thread, stack, code, times, free in ((client, 1, 7, 4, False), (client, 1, 7, refreshed, True),
                                             (client, 2, 7, printed, True), (other, 2, 7, 5, True),
                                             (client, 2, 8, 5, True)):
        s.with_stack(stack)
        thread.main.asks(service.main, code, free=free, times=times)
    s.wait(300)
    return s


def check_freed(folder: pathlib.Path, room: pathlib.Path, program: Program, fail: Fail) -> None:
    """The page says which function tells the stacks of what was not freed from those of others of that path, of the
    same process, that were freed."""
    place, other = (f"libleak.so+0x{program.inside[name]:x}" for name in ("refresh_settings", HOSTILE))
    shown = "".join("U+202E" if one == "\u202e" else one for one in HOSTILE).replace("<", "&lt;").replace(">", "&gt;")
    for number, (refreshed, printed, words, due) in enumerate((
            (1, 3, (), f"{place} is in the stacks of 4 of these 4, and of 1 of the 4 others of this path that the same"
                       f" process freed; in its place 3 have {other}."),
            (0, 1, (), f"{place} is in the stacks of 4 of these 4, and of 0 of the 1 other of this path that the same"
                       f" process freed; in its place 1 has {other}."),
            (2, 0, (), "The stacks of the 2 others of this path that the same process freed have the same functions."),
            (0, 0, (), ""),
            (1, 3, ("--symbols", program.path.parent),
             "keep_reply is in the stacks of 4 of these 4, and of 1 of the 4 others of this path that the same process"
             f" freed; in its place 3 have {shown}."))):
        capture = written(play_freed(program, refreshed, printed), room, f"freed-{number}")
        made = room / f"freed-{number}.html"
        view(folder, room, *capture, "-o", made, *words)
        told = [line for line in text_of(made).replace("</p>", "\n").splitlines() if "the same process freed" in line]
        compare(f"freed: {refreshed} and {printed} others, {words}", [due in line for line in told], [True] * bool(due),
                fail)


def check_stacks(folder: pathlib.Path, room: pathlib.Path, fail: Fail) -> None:
    program, seqs = built_program(room), calls_of(folder, room)
    check_freed(folder, room, program, fail)
    check_recorded(folder, room, fail)
    check_page(folder, room, program, seqs, fail)
    check_inner(folder, room, program, seqs, fail)
    check_symbols(folder, room, program, seqs, fail)
    check_hostile_stacks(folder, room, program, seqs, fail)
    check_odd_lines(folder, room, program, seqs, fail)
    check_damaged(room, program, fail)
