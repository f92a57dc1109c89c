"""Tries wrong bodies, many in one check, and says at which goals they are refused.

    checks/run wrong -- CRATE EDIT..       tries these edits of a crate
    checks/run wrong -- --all [CRATE..]    tries those stored for these crates, or for all, as `.ci/run` does: each must
                                           be refused at the goal that it names. What an earlier run on this machine has
                                           refused, from the same sources, is not tried again
    checks/run wrong -- --anew [CRATE..]   the same, and tries all
    checks/run wrong -- --fill [CRATE..]   the same, and writes a goal into each of these that names none

The wrong bodies of a crate are stored in its folder `wrong/`. Those of four crates, whose proofs are the cheapest, are
in `must-fail/`, where `rt ci` tries them too.

EDIT is a file in the form of those in `must-fail/`, or a folder with such files, from anywhere: those of an older
commit come from `git archive COMMIT crates/CRATE/wrong | tar x -C FOLDER`. An edit names its goal in a line that `rt`
does not read, with the function as `rt check` names it after the crate:

    # goal: returns-clause-each of answers::open_files

Edits of different functions go into one check, over the libraries that `rt ci` or crates/build has kept of the crates
below; a library that is not kept is made first. The check goes by the contracts of all functions that are not changed:
in its copy of the crate they have no body, and a hole in place of their proof. An edit is refused if a function that it
changes reads `no proof` or `not proved` by itself. Whatever else comes of an edit beside others, it is tried once more
alone: the other function may be one that it calls, or keep the crate from being read. An edit of no function, for
example of a constant or of a definition, has a check of its own, of the whole crate with all its proofs; a lemma that
is not proved then is a goal too, of each function that has no proof by itself.

A body that is refused only because its proof names what the function no longer has shows nothing about a clause, and
counts as not refused: keep the names, or mend the proof in the edit.

For each edit a line says what came of it, with the goals that were left. The status is 1 if an edit was not refused, or
not at the goal that it names, or with --all names none; 64 for another command line. With --all the last line says how
many were tried. As many checks run at a time as there are processors and memory. A crate takes as many checks as the
function with most edits has edits, and a check has at most MOST_EDITS.
"""

import contextlib
import pathlib
import re
import shutil
import sys
import tempfile
import time
from concurrent.futures import FIRST_COMPLETED, Future, ThreadPoolExecutor, wait
from typing import Collection, Iterator, NamedTuple

from checks.auditor.bare import keep_only
from checks.auditor.functions import function_at, homes_of, lines_of
from checks.auditor.refused_before import Before, RefusedBefore
from checks.kit.checking import own_room
from checks.kit.programs import ROOT, edits_of
from checks.kit.proving import Libraries

FN = re.compile(r"^fn (\S+): (.*)$", re.MULTILINE)
CALLS = re.compile(r"it calls|it passes|a call of")
# A declaration that is refused in a file of lemmas, which belongs to no function.
LEMMA = re.compile(r"^(?:\./)?proofs/[^/\s]+\.antt:\S+ error: `([^`]*)`(.*)", re.MULTILINE)
LOST = re.compile(r"has no field|is not in scope")
# How the line of a function with no proof file names the goals that were left.
OPEN = re.compile(r"did not prove ((?:`[^`]+`(?:, | and )?)+)")
GOAL = re.compile(r"^# goal:(.*)$", re.MULTILINE)
NAMED = re.compile(r" (\S+) of (\S+)")


# A check of this many takes long enough that what it loads first no longer counts, and several can run side by side.
MOST_EDITS = 15


class Goal(NamedTuple):
    name: str
    function: str

    def __str__(self) -> str:
        return f"{self.name} of {self.function}"


class Edit(NamedTuple):
    path: pathlib.Path
    pairs: list[tuple[str, str, str]]
    goal: Goal | None


class Stack(NamedTuple):
    """Edits of a crate that go into one check, each with the functions that it changes, and the files with them."""
    crate: str
    edits: list[tuple[Edit, set[str]]]
    texts: dict[str, str]

    @property
    def functions(self) -> list[str]:
        return sorted(set().union(*(changed for _, changed in self.edits)))

    @property
    def paths(self) -> list[pathlib.Path]:
        return [edit.path for edit, _ in self.edits]


class Verdict(NamedTuple):
    """What came of an edit: 'refused', 'lost', 'calls', 'proved' or 'unread'; what shows it; the goals that were
    left."""
    kind: str
    why: str
    goals: list[Goal] = []


def read_edit(path: pathlib.Path) -> Edit:
    file, old, pairs, text = "", "", [], path.read_text("utf-8")
    for line in text.split("\n"):
        word, _, rest = line.partition(":")
        if word == "file":
            file = rest.strip()
        elif word == "old":
            old = rest.removeprefix(" ")
        elif word == "new":
            pairs.append((file, old, rest.removeprefix(" ")))
    return Edit(path, pairs, goal_in(path, text))


def goal_in(path: pathlib.Path, text: str) -> Goal | None:
    """The goal that the text of an edit names."""
    lines = GOAL.findall(text)
    if not lines:
        return None
    named = NAMED.fullmatch(lines[0])
    if len(lines) > 1 or not named:
        sys.exit(f"checks/wrong: {path}: not one line '# goal: GOAL of FUNCTION'")
    return Goal(*named.groups())


def applied(edit: Edit, texts: dict[str, str], folder: pathlib.Path) -> tuple[dict[str, str], set[str]] | None:
    """The files with the edit, on top of these texts, and the functions that it changes; None if an old text is not
    there exactly once."""
    made, changed, homes = dict(texts), set(), homes_of(folder)
    for file, old, new in edit.pairs:
        text = made[file] if file in made else (folder / file).read_text("utf-8") if (folder / file).is_file() else ""
        if text.count(old) != 1:
            return None
        changed |= function_at(file, text, text.index(old) + len(old), homes)
        made[file] = text.replace(old, new)
    return made, changed


def edited_of(told: str, changed: set[str]) -> str:
    """The edited function that `rt` names, itself or by a closure in it; or nothing."""
    plain = re.sub(r"(^|::)fn::", r"\1", told, count=1)
    return next((it for it in sorted(changed) if told == it or plain != told and plain.startswith(f"{it}::")), "")


def goals_of(function: str, said: str, lines: tuple[str, int, int]) -> tuple[dict[str, str], list[str]]:
    """The goals of a function that were left, each with what a note on its line says: those of its proof files, and
    those that notes on its lines name. And those of its proof files that were left because of a name that the function
    no longer has."""
    *folders, name = (re.escape(it) for it in function.split("::"))
    # Functions that call one another have one folder.
    folder = "/".join([*folders, rf"(?:{name}|(?:\S*\+)?\+{name}(?:\+\S*)?)"])
    found, lost = {}, []
    for goal, why in re.findall(rf"^(?:\./)?proofs/{folder}/\S+: error: `([^`]*)`(.*)", said, re.MULTILINE):
        if LOST.search(why):
            lost.append(goal)
        else:
            found[goal] = ""
    file, first, last = lines
    notes = re.findall(rf"^note: {re.escape(file)}:(\d+):\d+: ([^(\n]*)\(`([^`]*)`\)", said, re.MULTILINE)
    for at, told, goal in notes:
        if first <= int(at) <= last:
            found[goal] = f" ({told.strip()})"
    return found, lost


def sources_of(folder: pathlib.Path, texts: dict[str, str]) -> dict[str, str]:
    """Each file of a crate's src/, the files of an edit first, with the edit."""
    paths = [it.relative_to(folder).as_posix() for it in sorted((folder / "src").rglob("*.rt"))]
    return texts | {it: (folder / it).read_text("utf-8") for it in paths if it not in texts}


def stacked(crate: str, edits: list[Edit]) -> tuple[Stack, list[Edit]]:
    """As many edits of a crate as fit into one check, and those that are left."""
    taken: list[tuple[Edit, set[str]]] = []
    left: list[Edit] = []
    texts: dict[str, str] = {}
    names: set[str] = set()
    for edit in edits:
        found = applied(edit, texts, folder_of(crate))
        fits = found and not found[1] & names and (not taken or found[1] and taken[0][1] and len(taken) < MOST_EDITS)
        if found and fits:
            texts, changed = found
            names |= changed
            taken.append((edit, changed))
        else:
            left.append(edit)
    return Stack(crate, taken, texts), left


def stacks_of(crate: str, edits: list[Edit]) -> tuple[list[Stack], list[Edit]]:
    """Edits of a crate as stacks, and those that can't be applied."""
    stacks = []
    while edits:
        stack, edits = stacked(crate, edits)
        if not stack.edits:
            break
        stacks.append(stack)
    return stacks, edits


def folder_of(crate: str) -> pathlib.Path:
    return ROOT / "crates" / crate


def checked(stack: Stack, libraries: Libraries, room: pathlib.Path) -> str:
    """What the prover says of a copy of the crate with these edits: of the functions that they change, over the
    contracts of the others; or of all functions if they change none, or if it has another name for one that is
    alone."""
    said = ""
    if stack.functions:
        with own_copy(stack, room) as copy:
            keep_only(stack.crate, copy, set(stack.functions))
            said = libraries.check(stack.crate, copy, stack.functions)
    if not stack.functions or len(stack.edits) == 1 and not FN.search(said):
        with own_copy(stack, room) as copy:
            said = libraries.check(stack.crate, copy, [])
    return said


@contextlib.contextmanager
def own_copy(stack: Stack, room: pathlib.Path) -> Iterator[pathlib.Path]:
    """A folder with the sources of a crate, with these edits."""
    with tempfile.TemporaryDirectory(dir=room) as made:
        copy = pathlib.Path(made)
        for part in ("src", "specs", "proofs"):
            if (folder_of(stack.crate) / part).is_dir():
                shutil.copytree(folder_of(stack.crate) / part, copy / part)
        for file, text in stack.texts.items():
            (copy / file).write_text(text, "utf-8")
        yield copy


def judged(crate: str, changed: set[str], said: str, sources: dict[str, str], homes: dict[str, list[str]]) -> Verdict:
    """What a check of the crate says of the edit of these functions."""
    told = {path.removeprefix(f"{crate}::"): what for path, what in FN.findall(said) if path.startswith(f"{crate}::")}
    if not told:
        errors = [it for it in said.split("\n") if re.search(r"\berror\b", it)]
        return Verdict("unread", (errors or said.strip().split("\n")[-1:])[0][:200])
    lacking = {it: what for it, what in told.items() if re.match(r"no proof|not proved", what)}
    by_itself = {it: what for it, what in lacking.items() if not CALLS.search(what)}
    if not changed:
        return refused_anywhere(by_itself, said, sources, homes) if by_itself else Verdict("proved", "")
    ours = {it: edited_of(it, changed) for it in lacking if edited_of(it, changed)}
    if ours:
        return refused_at(ours, lacking, by_itself.keys(), said, sources, homes)
    return Verdict("proved", "" if changed & told.keys() else f"no line of {', '.join(changed)}")


def refused_anywhere(by_itself: dict[str, str], said: str, sources: dict[str, str],
                     homes: dict[str, list[str]]) -> Verdict:
    """What is said of an edit of no function: a lemma that is not proved any more is a goal of each function that has
    no proof by itself."""
    lemmas = [(name, why) for name, why in LEMMA.findall(said) if not LOST.search(why)]
    verdict = refused_at({it: it for it in by_itself}, by_itself, by_itself.keys(), said, sources, homes)
    goals = [Goal(name, function) for function in by_itself for name, _ in lemmas]
    shown = f"; lemmas: {', '.join(name for name, _ in lemmas)}" if lemmas else ""
    return verdict._replace(why=verdict.why + shown, goals=verdict.goals + goals)


def refused_at(ours: dict[str, str], lacking: dict[str, str], by_itself: Collection[str], said: str,
               sources: dict[str, str], homes: dict[str, list[str]]) -> Verdict:
    """What is said of functions that have no proof, each with the edited function that it is a part of. `lacking` has
    the lines of all functions without a proof, and `by_itself` names those that do not only call another of them."""
    left = {it: goals_of(function, said, lines_of(function, sources, homes)) for it, function in ours.items()}
    for it in ours:
        for names in OPEN.findall(lacking[it]):
            left[it][0].update(dict.fromkeys(re.findall(r"`([^`]+)`", names), ""))
    # A function that calls another wrong body, or one with a hole, is refused by itself if it has goals of its own.
    lost = [it for it in ours if left[it][1] and not left[it][0]]
    found = [it for it in ours if it not in lost and (it in by_itself or left[it][0])]
    shown = {it: "; ".join(f"{goal}{note}" for goal, note in left[it][0].items()) or lacking[it] for it in ours}
    if found:
        goals = [Goal(name, ours[it]) for it in found for name in left[it][0]]
        return Verdict("refused", "; ".join(f"`{it}`: {shown[it]}"[:300] for it in found), list(dict.fromkeys(goals)))
    if lost:
        return Verdict("lost", "; ".join(f"`{it}`: {'; '.join(left[it][1])}"[:300] for it in lost))
    return Verdict("calls", ", ".join(f"`{it}`" for it in ours))


WORDS = {"refused": "refused", "lost": "REFUSED ONLY FOR LOST NAMES", "calls": "NOT REFUSED by itself",
         "proved": "NOT REFUSED", "unread": "NOT CHECKED"}


def ending(edit: Edit, verdict: Verdict, how: str) -> tuple[str, bool]:
    """The words for what came of an edit, and whether it is as it must be."""
    if verdict.kind != "refused":
        return WORDS[verdict.kind], False
    if edit.goal and edit.goal not in verdict.goals:
        return f"REFUSED ELSEWHERE, not at {edit.goal}", False
    if edit.goal or not how:
        return "refused", True
    if how == "--fill" and verdict.goals:
        return f"refused, and now names {fill(edit, verdict.goals)}", True
    return "REFUSED, BUT NAMES NO GOAL", False


def fill(edit: Edit, goals: list[Goal]) -> Goal:
    """Writes a goal into the edit: the first one about what the function returns, if one of those was left; and one
    about the end of a loop only if no other was."""
    def rank(goal: Goal) -> int:
        is_of_result = goal.name.startswith(("returns", "invariant_of-result"))
        return 0 if is_of_result else 1 + ("-smaller" in goal.name)
    goal = min(goals, key=rank)
    edit.path.write_text(f"# goal: {goal}\n{edit.path.read_text('utf-8')}", "utf-8")
    return goal


def tell(crate: str, edit: Edit, verdict: Verdict, how: str) -> tuple[str, bool]:
    """Prints what came of an edit. Returns the line, and whether the edit is as it must be."""
    words, well = ending(edit, verdict, how)
    line = f"{crate}/{edit.path.stem}: {words}{': ' * bool(verdict.why)}{verdict.why}"
    print(line, flush=True)
    return line, well


class Tried(NamedTuple):
    """What came of a stack, and how many seconds its check took."""
    stack: Stack
    verdicts: list[Verdict]
    seconds: float


def tried(stack: Stack, libraries: Libraries, room: pathlib.Path) -> Tried:
    began, folder = time.monotonic(), folder_of(stack.crate)
    said = checked(stack, libraries, room)
    sources, homes = sources_of(folder, stack.texts), homes_of(folder)
    verdicts = [judged(stack.crate, changed, said, sources, homes) for _, changed in stack.edits]
    return Tried(stack, verdicts, time.monotonic() - began)


def judge_stack(ended: Tried, how: str, before: RefusedBefore | None) -> tuple[int, list[Stack]]:
    """Says what came of each edit of a stack: returns how many are not as they must be, and those to be tried alone."""
    crate, told, alone = ended.stack.crate, [], []
    print(f"-- {crate}: {len(ended.verdicts)} in one check, {ended.seconds:.0f} s", flush=True)
    for (edit, _), verdict in zip(ended.stack.edits, ended.verdicts):
        is_refused = verdict.kind == "refused" and edit.goal in (None, *verdict.goals)
        if is_refused or len(ended.verdicts) == 1:
            told.append(tell(crate, edit, verdict, how))
        else:
            alone.append(edit)
    missed = sum(not well for _, well in told)
    if before and not missed:
        before.keep(crate, ended.stack.paths, Before([line for line, _ in told], [it.path.name for it in alone]))
    return missed, [stack for edit in alone for stack in stacks_of(crate, [edit])[0]]


def not_refused_before(stacks: list[Stack], before: RefusedBefore) -> list[Stack]:
    """Those that no earlier run has tried; of the others it prints again what came of them."""
    left = []
    for stack in stacks:
        kept = before.of(stack.crate, stack.paths)
        if kept is None:
            left.append(stack)
            continue
        print(f"-- {stack.crate}: {len(stack.edits)} in one check, in an earlier run")
        print(*kept.lines, sep="\n", flush=True)
        alone = [alone for edit, _ in stack.edits if edit.path.name in kept.alone
                 for alone in stacks_of(stack.crate, [edit])[0]]
        left += not_refused_before(alone, before)
    return left


def try_all(stacks: list[Stack], libraries: Libraries, how: str, before: RefusedBefore | None) -> int:
    """Tries all stacks, several at a time, the largest crates first. Returns how many edits are not as they must be."""
    missed = 0
    with own_room() as room, ThreadPoolExecutor(libraries.checks_at_once()) as pool:
        def start(stack: Stack) -> "Future[Tried]":
            return pool.submit(tried, stack, libraries, room)
        running = {start(it) for it in sorted(stacks, key=lambda it: -libraries.size(it.crate))}
        while running:
            ended, running = wait(running, return_when=FIRST_COMPLETED)
            for one in ended:
                more, alone = judge_stack(one.result(), how, before)
                missed += more
                running |= {start(it) for it in alone}
    return missed


def asked(words: list[str]) -> tuple[str, dict[str, list[pathlib.Path]]] | None:
    """What the command line asks for: --all, --anew, --fill or nothing, and the edits of each crate; None if it is
    another one."""
    how = words[0] if words[:1] in (["--all"], ["--anew"], ["--fill"]) else ""
    crates = sorted(it.name for it in (ROOT / "crates").iterdir())
    if how:
        stored = {it: edits_of(folder_of(it)) for it in words[1:] or crates}
        edits = {it: paths for it, paths in stored.items() if paths or words[1:]}
    else:
        paths = [it for word in words[1:] for it in (sorted(pathlib.Path(word).glob("*.edit")) or [pathlib.Path(word)])]
        edits = {it: paths for it in words[:1]}
    for crate, paths in edits.items():
        lacking = [] if paths else [f"crates/{crate}: it has no edits"]
        lacking += [f"{it}: there is no such file" for it in paths if not it.is_file()]
        if crate not in crates:
            lacking = [f"{crate}: there is no such crate"]
        for line in lacking:
            print(f"checks/wrong: {line}", file=sys.stderr)
        if lacking:
            return None
    return (how, edits) if edits else None


def main() -> int:
    if sys.argv[1:] in (["--help"], ["-h"]):
        print(__doc__.rstrip())
        return 0
    wanted = asked(sys.argv[1:])
    if not wanted:
        print(__doc__.split("\n\n")[1], file=sys.stderr)
        return 64
    how, edits = wanted
    stacks, missed = [], 0
    for crate, paths in edits.items():
        more, lost = stacks_of(crate, [read_edit(it) for it in paths])
        stacks += more
        missed += len(lost)
        for edit in lost:
            print(f"{crate}/{edit.path.stem}: NOT APPLIED: an old text is not there exactly once", flush=True)
    count = sum(len(stack.edits) for stack in stacks)
    try:
        before = RefusedBefore() if how in ("--all", "--anew") else None
        if before and how == "--all":
            stacks = not_refused_before(stacks, before)
        if stacks:
            with Libraries.below({stack.crate for stack in stacks}) as libraries:
                missed += try_all(stacks, libraries, how, before)
    except Libraries.Stopped as stopped:
        print(f"checks/wrong: {stopped}", file=sys.stderr)
        return 1
    if before:
        fresh = sum(len(stack.edits) for stack in stacks)
        print(f"checks/wrong: {fresh} of {count} wrong bodies were tried; an earlier run has refused the others")
    return 1 if missed else 0


if __name__ == "__main__":
    sys.exit(main())
