"""Makes docs/DEFINITIONS.md: all definitions that the headline rests on, each with its comment, in an order of reading.
And docs/TABLE-DEFINITIONS.md, of those of the tables (table_definitions.py).

    checks/run definitions              compares both with the pages; names the first line of each that differs
    checks/run definitions -- --print   prints the page
    checks/run definitions -- --tables  prints that of the tables

It starts at ROOTS and follows each name by the `use` lines of its file: to definitions in specs/, and to types and
constants that src/ declares. It fails at a name that leads nowhere. CHAPTERS says in which chapter a definition is.
"""

import functools
import re
import textwrap
from itertools import zip_longest
from typing import NamedTuple

from checks.kit.checking import FLAG, check
from checks.kit.programs import ROOT
from checks.pages import table_definitions

PAGE = ROOT / "docs/DEFINITIONS.md"

# What the page starts from, by crate, file and name: functions, which have contracts, or definitions.
ROOTS = [("audit_run", "part_runs.rt", "run_parts")]

# The chapters in their order, and what is in each: crates, and files of crates, which go before their crate. Where
# definitions do not decide which file comes first, this does.
CHAPTERS = {
    "The headline": "audit_run audit_join audit_judge streams",
    "The answer": "report_text/Answers.antt report_text/Text.antt report_text/Section.antt report_text/Fault.antt",
    "The grammar": "transaction_view/Grammar.antt capture_frame/ReadOn.antt capture_frame/Tests.antt capture_frame",
    "Records": "record_view",
    "Attachments and objects": "transaction_view object_view",
    "Codes, fields and flags": "transaction_view/Transaction.antt binder_code",
    "Events, brackets and calls": """event_core/Events.antt capture_frame/Process.antt capture_frame/process.rt
        call_stacks event_core/Brackets.antt event_core/marks.rt""",
    "Ledgers": "process_ledgers handle_ledger pending_ledger event_core",
    "Sections": "audit_findings",
    "The layout of the report": "report_text",
    "General words": "summary_law",
}

INTRODUCTION = """# The definitions

The [headline](PROMISES.md#fourth-rung-the-headline-any-number-of-workers) rests on
ROOTS, and on all definitions to which the contract leads from name to name.
Proofs show that the program does as the definitions say. Whether the definitions say what you mean, no proof can show:
for that, read this page.

The comment before a definition says the same in words; the text of the definition counts. A chapter goes from the whole
to the parts: a definition comes before the definitions of the chapter that it names. A heading names a file of `specs/`
in a crate, and the definitions of that file follow. A type or a constant of the code, from `src/`, follows the first
definition that names the type or constant. In such code a number of any width means a number without bounds, and
`Vec<T>` means `List T`. Two types may have cases of one name, and a case may have the name of a type: the type at hand
tells which is meant. Only the definitions that the headline needs are shown, so the sentence under a heading may speak
of more. The words of the toolchain come last. `checks/run definitions` makes this page from the sources.

| sign | what it says |
|---|---|
| `f : A → B → C` | f makes a C of an A and a B |
| `f x y`, `λ x. e` | f of x and y; the function that makes e of x |
| `f None = a`, `f _ = b` | f of `None` is a, and f of any other value is b: the first line that fits counts |
| `let x = a in e` | e, where x is a |
| `elim x [ \\| p ↦ a \\| q ↦ b ]` | a if x is p, and b if x is q |
| `P : A → Type 0` | P is a statement about an A, which is true or not |
| `a ≡ b` | a is b |
| `P × Q`, `P → Q` | P and Q; if P, then Q |
| `(x : A) → P`, `(x : A) × P` | for each x of A, P; for some x of A, P |
| `⊤`, `⊥` | the statement that is always true; the statement that is never true |
| `Unit {0}` | the type that has only `tt` |
| `A × B`, `(a, b)`, `p.0`, `p.1` | the type of pairs, a pair, and the two parts of a pair |
| `T : Type 0` | T is a type |
| `{A : Type 0}` | for each type A; the rest of the line shows which type is meant |
| `record` | a type with these fields; as a statement: there is a value for each field |
| `p.a`, `record { a = b }` | the field a of p; a value with b as the field a |
| `data` | a type with these cases; as a statement: true in each of these cases, and in no other |
| `[]`, `x ∷ xs`, `xs ++ ys` | the empty list; x and then the list xs; the list xs and then the list ys |
| `a - b`, `a / b`, `a % b` | of `ℕ`: the difference, or 0 if b is larger; the quotient, rounded down; the rest |
| `a -ℤ b` | the difference, of `ℤ` |
| `a == b`, `a && b`, `a \\|\\| b` | a is b; a and b; a or b: as a `Bool` that is computed |
| `requires { P }`, `ensures { Q }` | P is true before the call, and Q after the call; `result` is the returned value |
| `x.old`, `x.new`, `v.items` | in a contract: x before the call and after it; the elements of a `Vec` |
"""

# What words of the libraries mean. The others are only listed.
WORDS = {
    "All": "the statement is true of each element",
    "AllZip": "the lists have the same length, and the statement is true of each two elements at one index",
    "Appends": "if the old bytes are known, the new bytes are the old bytes and then the given ones",
    "IfSome": "the statement is true of the value, if there is one",
    "Keeps": "if the old bytes are known, the new bytes are the same",
    "bit_and": "the bits of both numbers",
    "bit_or": "the bits of at least one of the numbers",
    "contents": "the bytes of a writer, if known",
    "bool_cmp": "the order of `Bool`: `false`, then `true`",
    "codes": "the bytes of a literal",
    "cons_option": "the list, after the value if there is one",
    "count_by": "how many elements pass the test",
    "decimal": "a number in decimal digits",
    "digit_glyph": "the byte of one digit, in lower case if `false` is given",
    "digits": "a number in digits of the given base, in lower case if `false` is given",
    "drop": "the list without its first n elements",
    "eq_by_cmp": "whether two values are `Equal` in the given order",
    "filter": "the elements that pass the test, in order",
    "filter_map": "the values that the function gives for the elements, in order, without `None`",
    "find": "the first element that passes the test, if one does",
    "flat_map": "the lists that the function makes of the elements, one after another",
    "fold": "the value after the last element, where each element in turn makes a new value of the value before",
    "int_eq": "whether two numbers of `ℤ` are the same",
    "int_min": "the lesser of two numbers of `ℤ`",
    "is_some": "whether there is a value",
    "keys_of": "the first part of each pair",
    "last_or": "the last element, or the given value if the list is empty",
    "length": "how many elements a list has",
    "list_any": "whether some element passes the test",
    "little_number": "the number in the first n bytes, the lowest first",
    "map": "the values that the function makes of the elements, in order",
    "match_ordering": "the first, the second or the third value, for `Less`, `Equal` or `Greater`",
    "nat_cmp": "the order of `ℕ`",
    "on": "the comparison of the function's values of two values",
    "option_map": "the value that the function makes of the value, if there is one",
    "option_map_or": "the value that the function makes of the value, or the given value if there is none",
    "option_or": "the first, or the second if the first has no value",
    "ordering_then": "the first, or the second if the first is `Equal`",
    "pos": "a number of `ℕ` as a number of `ℤ`",
    "remaining": "the bytes left in a reader, if known",
    "sameb": "whether two values of the enum, whose cases hold nothing, are the same",
    "signed_decimal": "a number in decimal digits, after a `-` if below 0",
    "slice_get": "the element at the index, counted from 0, if there is one",
    "slice_index": "the number at the index, counted from 0, or 0 after the end of the list",
    "starts_with": "whether the list begins with the other list, by the given test of two elements",
    "suc": "`suc n` is n + 1",
    "sum": "the sum of the elements",
    "sum_by": "the sum of the function's numbers of the elements",
    "take": "the first n elements, or all if there are fewer",
    "the_type": "the enum of the values beside the word",
    "then_cmp": "by the first order, and by the second where the first has `Equal`",
    "twos_complement": "the signed number with the given number of n bytes as two's complement",
    "unwrap_or": "the value, or the given value if there is none",
    "vec_len": "how many elements a `Vec` has",
}

WIDTH = 120

# The words of the notation, which are no names.
NOTATION = {"Type", "Unit", "tt", "record", "data", "where", "let", "in", "λ", "if", "then", "else", "elim"}


class Definition(NamedTuple):
    """What the page shows: its crate, its file in specs/ or src/, its name, its comment and its text."""
    crate: str
    file: str
    name: str
    comment: str
    text: str

    def is_declared(self):
        """Whether src/ declares it."""
        return self.file.endswith(".rt")

    def is_function(self):
        """Whether it is a function of src/, shown by its contract."""
        return self.is_declared() and self.text.startswith("fn ")


class Word(NamedTuple):
    """A word of the toolchain's libraries."""
    library: str
    name: str


class Nowhere(Exception):
    """A name leads nowhere."""


# ---- the files


@functools.cache
def source(crate, file):
    """The text of a file in specs/ or src/ of a crate; empty if there is none."""
    path = ROOT / "crates" / crate / ("src" if file.endswith(".rt") else "specs") / file
    return path.read_text("utf-8") if path.exists() else ""


def plain(comment):
    """What comment lines say."""
    return " ".join(re.sub(r"^\s*(--|///) ?", "", line) for line in comment.splitlines()).strip()


@functools.cache
def definitions_in(crate, file):
    """The definitions of a file of specs/ by their names. A constructor leads to the definition that has it."""
    found = {}
    for block in re.split(r"\n\n+", source(crate, file)):
        made = re.search(r"^(?:abbrev |unfoldable )?pub (?:record |data )?(?!use |mod )([^\s:]+)", block, re.MULTILINE)
        if made:
            text = re.sub(r"^(?:abbrev |unfoldable )?pub |(?<=^  )pub ", "", block[made.start():].rstrip(), flags=re.M)
            one = Definition(crate, file, made[1], plain(block[:made.start()]), text)
            constructors = re.findall(r"^  ([^\s:]+) :", text, re.MULTILINE) if text.startswith("data ") else []
            found |= dict.fromkeys([one.name, *constructors], one)
    return found


@functools.cache
def declared_in(crate, file, name):
    """What a file of src/ declares by this name: a type, a constant, or a function with its contract."""
    head = re.search(rf"^((?:///.*\n)*)(?:#.*\n)*pub ((?:struct|enum|const|type|fn) {name}\b)", source(crate, file),
                     re.MULTILINE)
    if not head:
        raise Nowhere(f"crates/{crate}/src/{file}: no {name}")
    rest = source(crate, file)[head.start(2):]
    if rest.startswith("fn "):
        text = rest[:re.search(r"^{\n", rest, re.MULTILINE).start()].rstrip()
    else:
        line = rest[:rest.index("\n")]
        model = re.search(rf"(?s)\bModel for {name}\b.*?\bValue = {{ (.*?) }};", rest)
        text = members(rest[:rest.index("\n}")]) if line.endswith("{") and not model else line.rstrip(" {;")
        text += f"  // means {model[1]}" if model else ""
    return Definition(crate, file, name, plain(head[1]), text)


def members(declaration):
    """A struct or an enum, given without its last brace: its fields or variants, each with its comment after it."""
    head, *lines = declaration.splitlines()
    rows, comment, member = [], [], []
    for line in map(str.strip, lines):
        if line.startswith("///"):
            comment += [] if member else [line]
        else:
            member.append(re.sub(r"^pub ", "", line))
            whole = " ".join(member).replace(", }", " }")
            if line.endswith(",") and whole.count("{") == whole.count("}"):
                rows.append((whole, plain("\n".join(comment))))
                comment, member = [], []
    line = " ".join([head, *(member for member, _ in rows)]).rstrip(",") + " }"
    if len(line) <= WIDTH - 4 and not any(comment for _, comment in rows):
        return line
    return "\n".join([head, *rows_of_members(rows), "}"])


def rows_of_members(rows):
    """The lines of fields or variants: those without a comment share lines."""
    lines, shared = [], []
    for member, comment in [*rows, ("", "")]:
        if shared and (comment or not member):
            lines += textwrap.wrap(" ".join(shared), WIDTH - 4, initial_indent="    ", subsequent_indent="    ")
            shared = []
        if comment and len(f"        {member}  // {comment}") <= WIDTH:
            lines.append(f"    {member}  // {comment}")
        elif comment:
            mark = "    // "
            lines += [*textwrap.wrap(comment, WIDTH - 4, initial_indent=mark, subsequent_indent=mark), f"    {member}"]
        else:
            shared.append(member)
    return lines


# ---- where names lead


@functools.cache
def imports(crate, file):
    """What the `use` lines of a file name: for each name a path and the name at its end, or no name for a module."""
    found = {}
    for path, names, alias in re.findall(r"^\s*(?:ghost )?use ((?:Rattle|denote)[\w.]+?)(?:\.\{(.*?)\}| as (\w+));?$",
                                         source(crate, file), re.MULTILINE):
        found |= {name: (path, name) for name in names.split(", ")} if names else {alias: (path, None)}
    for path, names in re.findall(r"^use ([\w:]+)::(\w+|\{[^}]*\});$", source(crate, file), re.MULTILINE):
        owner = crate if path.startswith("crate") else path.split("::")[0]
        found |= {name: (owner, name) for name in re.findall(r"\w+", names)}
    return found


@functools.cache
def types_of(crate):
    """The types that src/ of a crate declares, each with its file."""
    there = ROOT / "crates" / crate / "src"
    return {name: str(file.relative_to(there)) for file in sorted(there.glob("**/*.rt"))
            for name in re.findall(r"^pub (?:struct|enum|type) (\w+)", file.read_text("utf-8"), re.MULTILINE)}


def follow(path, name):
    """What a name is at the end of a path, such as Rattle.capture_frame.specs.Units."""
    head, crate, _, *rest = path.split(".")
    if head != "Rattle" or not (ROOT / "crates" / crate).exists():
        return Word(crate, name)
    if rest[0] == "contracts":
        return Word("std", name)
    if rest[0] == "declared":
        file = next(at for at, part in enumerate(rest) if part[0].isupper())
        owner = name if rest[file] == "TheConstants" else rest[file]
        return declared_in(crate, "/".join(rest[1:file]) + ".rt", owner)
    there = definitions_in(crate, "/".join(rest) + ".antt")
    if name in there:
        return there[name]
    passed = re.search(rf"^pub use (Rattle\S*\.{rest[-1]})$", source(crate, "Lib.antt"), re.MULTILINE)
    if not passed:
        raise Nowhere(f"{path}: no {name}")
    return follow(passed[1], name)


def lookup(where, name, last):
    """What a name is in a definition; `last` is the name at the end of a path such as readers.Steps."""
    own = {} if where.is_declared() else definitions_in(where.crate, where.file)
    if name in own:
        return own[name]
    path, at_end = imports(where.crate, where.file).get(name, (None, None))
    if path is None:
        raise Nowhere(f"crates/{where.crate}/specs/{where.file}: {where.name}: no {name}")
    return follow(path, at_end or last)


# ---- which names a definition has


def bound_in(text):
    """The names that stand for values in a definition: of λ, of let, and those before the colon in brackets."""
    bound = set(re.findall(r"\blet (\w+)", text))
    for names in re.findall(r"[({]((?:[^\s(){}:]+ )+): ", text):
        bound |= set(names.split())
    for names in re.findall(r"λ ((?:[^.()]|\([^.]*?\))*)\.\s", text):
        bound |= set(re.sub(r"\(.*?\)", "", names).split())
    return bound


NAME = re.compile(r"(?<![\w.])([^\W\d][\w']*(?:-\w+)*)((?:\.\w+)*)")


def is_pattern(where, name):
    """Whether the name is a constructor, so that it is none of a value at the left of an equation."""
    try:
        found = lookup(where, name, None)
    except Nowhere:
        return False
    if isinstance(found, Word):
        return name in ("true", "false", "zero", "suc", "Some", "None", "Ok", "Err")
    return found.name != name and (found.is_declared() or found.text.startswith("data "))


def text_and_bound(where):
    """The text of a definition without comments, literals and labels, and the names that stand for values in it."""
    text = re.sub(r'"[^"]*"|(?<!\S)--.*', "", where.text)
    bound = bound_in(text) | set(re.findall(r"^  (\S+) :", text, re.MULTILINE))

    def pattern(found):
        bound.update(name for name, _ in NAME.findall(found[1]) if not is_pattern(where, name))
        return found[1]

    text = re.sub(r"^(?!record |data )\S+((?: [^:=][^=]*?)?) =(?=\s)", pattern, text, flags=re.MULTILINE)
    text = re.sub(r"[|[]( [^|[↦]*)↦", pattern, text)
    return re.sub(r"(^ *|(?<=[{;] ))\w+ =(?=\s)", "", text, flags=re.MULTILINE), bound | {where.name}


@functools.cache
def named_by(where):
    """What a definition names, in the order of its text."""
    if where.is_declared():
        return declared_names(where)
    text, bound = text_and_bound(where)
    found = {}
    for name, tail in NAME.findall(text):
        if name not in bound | NOTATION:
            found[lookup(where, name, tail.split(".")[-1] or None)] = None
    return [one for one in found if one != where]


def declared_names(where):
    """What a type, a constant or the contract of a function names, also as in `R.remaining`, of a trait of the
    toolchain."""
    text = re.sub(r"//.*", "", where.text)
    found = {Word("std", name): None for name in re.findall(r"\b[A-Z]\.(\w+)", text) if where.is_function()}
    for name in re.findall(r"\w+", text):
        path, at_end = imports(where.crate, where.file).get(name, (where.crate, name))
        if path.startswith("Rattle."):
            found[follow(path, at_end)] = None
        elif not where.is_function() and name in types_of(path):
            found[declared_in(path, types_of(path)[name], name)] = None
    return [one for one in found if one != where]


# ---- the order of reading


def roots():
    """The definitions and functions of ROOTS."""
    return [declared_in(*root) if root[1].endswith(".rt") else definitions_in(*root[:2])[root[2]] for root in ROOTS]


def reached():
    """All that the roots rest on, each before what it names; and the words of the libraries among them."""
    done, words = {}, set()

    def visit(one):
        if isinstance(one, Word):
            words.add(one)
        elif one not in done:
            done[one] = None
            for other in reversed(named_by(one)):
                visit(other)
            left.append(one)

    left = []
    for root in reversed(roots()):
        visit(root)
    return left[::-1], words


@functools.cache
def place_of(one):
    """The title of the chapter that has the definition, and where in its list."""
    for place in (f"{one.crate}/{one.file}", one.crate):
        for title, places in CHAPTERS.items():
            if place in places.split():
                return title, places.split().index(place)
    raise Nowhere(f"CHAPTERS: no {one.crate}/{one.file}")


def rests_on(order):
    """All that each of these rests on."""
    found = {}
    for one in reversed(order):
        own = [other for other in named_by(one) if other in found]
        found[one] = set(own).union(*(found[other] for other in own))
    return found


def from_the_top(own):
    """The definitions of a file, given as they are written: each before those that it names."""
    done, left = set(), []

    def visit(one):
        if one not in done:
            done.add(one)
            for other in reversed([other for other in own if other in named_by(one)]):
                visit(other)
            left.append(one)

    for one in reversed(own):
        visit(one)
    return left[::-1]


def files_from_the_top(written, below):
    """The definitions of a chapter file by file, each file before those that it rests on."""
    rest = {}
    for one in sorted(written, key=place_of):
        rest.setdefault((one.crate, one.file), set()).add(one)
    while rest:
        under = {file: set().union(*(below[one] for one in rest[file])) for file in rest}
        first = next(file for file in rest if not any(rest[file] & under[other] for other in rest if other != file))
        has = rest.pop(first)
        yield from from_the_top([one for one in dict.fromkeys(definitions_in(*first).values()) if one in has])


def arranged(chapter, below):
    """The definitions of a chapter in their order: those of specs/, and each of src/ after the first that names it."""
    ordered = list(files_from_the_top([one for one in chapter if not one.is_declared()], below))
    for one in filter(Definition.is_declared, chapter):
        at = next((at for at, other in enumerate(ordered, 1) if one in named_by(other)), 0)
        while 0 < at < len(ordered) and ordered[at].is_declared():
            at += 1
        ordered.insert(at, one)
    return ordered


# ---- the page


def linked(comment):
    """A comment with links to the pages that it names."""
    return re.sub(r"\bdocs/(\w+)\.md", r"[\1](\1.md)", comment)


def shown(one):
    """The lines of a definition: its comment, then its text."""
    of = f"of {one.crate}/src/{one.file}: " if one.is_declared() else ""
    mark = "    -- "
    comment = textwrap.wrap(f"{of}{one.comment}", WIDTH, initial_indent=mark, subsequent_indent=mark,
                            break_long_words=False, break_on_hyphens=False)
    return [*comment, *textwrap.indent(one.text, "    ").splitlines(), ""]


def chapter_lines(title, ordered):
    lines, last = [f"## {title}", ""], None
    for one in ordered:
        file = last if one.is_declared() else (one.crate, one.file)
        if file != last:
            lines += [f"### {file[1]} of {file[0]}", "", *textwrap.wrap(linked(head_of(*file)), WIDTH), ""]
        lines += shown(one)
        last = file
    return lines


def head_of(crate, file):
    """What the comment at the head of a file says."""
    head = re.match(r"(?:--.*\n)+(?=use )", source(crate, file))
    return plain(head[0]) if head else ""


def word_lines(words):
    """The words of the libraries: first those that it takes some words to explain."""
    names = {word.name for word in words}
    told = [f"- `{name}`: {WORDS[name]}" for name in sorted(names & WORDS.keys(), key=str.lower)]
    others = ", ".join(f"`{name}`" for name in sorted(names - WORDS.keys(), key=str.lower))
    return ["## Words of the toolchain", "", *told, "", *textwrap.wrap(f"Also {others}.", WIDTH), ""]


def page():
    """The page as a text."""
    order, words = reached()
    below = rests_on(order)
    named = " and ".join(f"the contract of `{one.name}`" if one.is_function() else f"`{one.name}`" for one in roots())
    lines = INTRODUCTION.replace("ROOTS", named).splitlines() + [""]
    for title in CHAPTERS:
        chapter = [one for one in order if place_of(one)[0] == title]
        lines += chapter_lines(title, arranged(chapter, below)) if chapter else []
    text = "\n".join([*lines, *word_lines(words)])
    return re.sub(r"\n{3,}", "\n\n", text).rstrip() + "\n"


# The pages, each with what makes it.
PAGES = {PAGE: page, table_definitions.PAGE: table_definitions.page}


def stale(path):
    """The first line of a page that should be another, and what is wrong with it; or nothing."""
    if path == table_definitions.PAGE and table_definitions.missing():
        yield 1, f"no chapter or no file: {' '.join(sorted(table_definitions.missing()))}"
    try:
        made = PAGES[path]()
    except Nowhere as error:
        yield 1, str(error)
        return
    there, due = (path.read_text("utf-8") if path.exists() else "").splitlines(), made.splitlines()
    for number, (line, other) in enumerate(zip_longest(there, due), 1):
        if line != other:
            yield number, "checks/run definitions writes " + ("no more" if other is None else repr(other))
            return


def judge(given, *_):
    if given.print or given.tables:
        print((table_definitions.page if given.tables else page)(), end="")
        return
    for path in PAGES:
        yield from (f"{path.relative_to(ROOT)}:{number}: {what}" for number, what in stale(path))


if __name__ == "__main__":
    check(judge, print=FLAG, tables=FLAG)
