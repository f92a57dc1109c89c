"""Checks `viewer/methods/table.py`, the table of methods.

    checks/run methods
    checks/run methods -- --compilers FOLDER    also compares with Debian's compilers; by hand

What must hold:

- The table of method_sources/ is the stored one, method_sources/table.txt.
- No source is misread in silence: sources with strange names, with comments, strings or brackets that do not end, with
  ids that do not fit, and others are refused, with file and line; a source that is cut anywhere is refused, or gives no
  interface or the whole one. An interface in C++ that is not certain is left out, with file and line; nothing keeps
  the reader of C++ for long.
- Two sources that disagree are refused. So is a parent that no source has.

With --compilers:

- For each interface in method_sources/ the codes are those that `aidl`, for Java and for the NDK, or `hidl-gen` give.
- Sources that were changed at random, 300 of them, have the codes that `aidl` gives, or are refused by one of the two.
  How many each took is printed.

The compilers are those of Debian sid. They are fetched by apt-get into FOLDER, if they are not there yet, and not
installed. That takes some minutes; without, this takes a second.
"""

import argparse
import os
import pathlib
import random
import re
import subprocess
import time
from typing import Iterable, Iterator

from checks.kit.checking import check
from checks.kit.programs import CHECKS, PACKAGED
from checks.kit.runs import answer, at_once
from viewer.methods import cpp, hal
from viewer.methods.aidl import Aidl
from viewer.methods.every import ADDED, BASE, OF_BASE
from viewer.methods.sources import Interface, Wrong

PROGRAM = PACKAGED["binder-methods"]
SOURCES = CHECKS / "viewer/method_sources"
AIDL = SOURCES / "aidl"

# Codes: interface, code and method.
Codes = set[tuple[str, int, str]]


# ---- sources that are refused

BIG = 10_000_000
IN = "package p;\ninterface I {\n"

# Sources of AIDL, each with the line of its fault, and words of what is said.
WRONG_AIDL = {
    "a mark that turns the direction": (IN + "void a\u202eb(); }", 3, "unexpected U+202E"),
    "a letter that is not ASCII": (IN + "void a\u00e4(); }", 3, "unexpected U+00E4"),
    "HTML": (IN + "void <script>alert(1)</script>(); }", 3, "expected a name and not 1"),
    "a mark of byte order": ("\ufeff" + IN + "}", 1, "unexpected U+FEFF"),
    "a zero byte": (IN + "void a\0(); }", 3, "unexpected U+0000"),
    "braces": (IN + "{" * BIG, 3, "expected a name and not {"),
    "braces in a value": (IN + "const int A = " + "{" * BIG, 3, "more than 50 levels"),
    "parentheses": (IN + "const int A =\n" + "(" * BIG, 4, "more than 50 levels"),
    "lists of lists": (IN + "List" + "<List" * BIG, 3, "more than 50 levels"),
    "annotations of annotations": (IN + "@a(" * (BIG // 3), 3, "expected a name and not @"),
    "interfaces in interfaces": ("interface I {\n" * (BIG // 14), 51, "more than 50 levels"),
    "arrays of arrays": (IN + "int[" * (BIG // 4), 3, "expected ] and not ["),
    "a long name": (IN + "void " + "a" * BIG + "(); }", 3, "a name of 10000000 characters"),
    "a comment without an end": (IN + "void a();\n/* }\n\n\n", 4, "a comment that does not end"),
    "a string without an end": (IN + "const String A = \"; void a(); }\n\n\";", 3, "a string that does not end"),
    "a backslash": (IN + "const String A = \"\\\"; void a(); //\";\nvoid b(); }", 3, "or has a backslash"),
    "no brace at the end": (IN + "void a();\n", 4, "not the end of the file"),
    "two braces at the end": (IN + "void a(); }\n}", 4, "expected a declaration and not }"),
    "no semicolon": (IN + "const int A = 1\nvoid a(); }", 4, "expected ; and not void"),
    "a semicolon too many": (IN + "void a();; }", 3, "expected a name and not ;"),
    "a method without a type": (IN + "a(); }", 3, "expected a name and not ("),
    "a keyword as a name": (IN + "void in(); }", 3, "expected a name and not in"),
    "some ids": (IN + "void a() = 1;\nvoid b(); }", 4, "either all methods have ids or none has"),
    "an id again": (IN + "void a() = 1;\nvoid b() = 01; }", 4, "the id 1 is that of the method in line 3"),
    "an id too large": (IN + "void a() = 16777115; }", 3, "the id of a is no whole number up to 16777114"),
    "an id of many digits": (IN + "void a() = " + "1" * 100_000 + "; }", 3, "the id of a is no whole number"),
    "an id in hexadecimal": (IN + "void a() = 0x10; }", 3, "the id of a is no whole number"),
    "an id with letters": (IN + "void a() = 1L; }", 3, "the id of a is no whole number"),
    "an id below 0": (IN + "void a() = -1; }", 3, "expected a number and not -"),
    "a method again": (IN + "void a();\nvoid a(int b); }", 4, "the name a is that of the method in line 3"),
    "a descriptor with a tab": ("@Descriptor(value=\"p.I\t1\") interface I { }", 1, "a descriptor with other signs"),
    "a descriptor of two": ("@Descriptor(value=\"p.\" + \"I\") interface I { }", 1, "expected ) and not +"),
    "a body after dots": ("interface p.I { void a(); }", 1, "a body after a name with dots")}

HAL = "package p@1.0;\ninterface I {\n"

WRONG_HAL = {
    "no version": ("package p;\ninterface I { a(); };", 1, "a package without a version: p"),
    "no package": ("interface I { a(); };", 1, "expected package and not interface"),
    "an empty comment": (HAL + "a(); /**/ b(); /* */\n};", 3, "/**/ begins a comment in hidl-gen"),
    "a comment without an end": (HAL + "a();\n/** };", 4, "a comment that does not end"),
    "no semicolon at the end": (HAL + "a(); }\n", 4, "expected ; and not the end of the file"),
    "a name with a dot": (HAL + "a.b(); };", 3, "expected a plain name and not a.b"),
    "a mark that turns the direction": (HAL + "a\u202e(); };", 3, "unexpected U+202E"),
    "a string without an end": (HAL + "@a(b=\"\n) c(); };", 3, "a string that does not end"),
    "a long string": (HAL + "@a(b=\"" + "x" * BIG + "\") c(); };", 3, "or is longer than 4096 signs"),
    "vectors of vectors": (HAL + "a(" + "vec<" * (BIG // 4), 3, "more than 50 levels"),
    "structures in structures": (HAL + "struct A {\n" * (BIG // 11), 53, "more than 50 levels"),
    "a method again": (HAL + "a();\na(); };", 4, "the name a is that of the method at"),
    "a parent that nobody has": ("package p@1.1;\ninterface I extends @1.0::I { };", 2, "no source has p@1.0::I"),
    "a parent that is not imported": ("package p@1.0;\ninterface I extends J { };", 2, "J is neither declared before"),
    "two parents of one name": (HAL + "a(); };\ninterface I { b(); };\ninterface J extends I { };", 5,
                                "what is extended here may be p@1.0::I at f:2, or p@1.0::I at f:4"),
    "an interface above itself": ("package p@1.0;\n\ninterface I extends @1.0::I { };", 3, "p@1.0::I extends itself"),
    "another method of IBase": ("package android.hidl.base@1.0;\ninterface IBase { pong(); };", 2,
                                "the code of pong of android.hidl.base@1.0::IBase is not known")}


# What is said of the interfaces in C++ that are left out.
LEFT_OUT = (
    "10: check.hand.IConditional has an enum at cpp/forms.h:37 whose codes can't be read for certain",
    "11: check.hand.ITwice has enums of codes at cpp/forms.h:48 and cpp/forms.h:49",
    "12: check.hand.IReckoned has an enum at cpp/forms.h:54 whose codes can't be read for certain",
    "13: check.hand.ILate has an enum at cpp/forms.h:59 whose codes can't be read for certain",
    "14: check.hand.IClash has an enum at cpp/forms.h:64 whose codes can't be read for certain",
    "15: check.hand.ILonely has no enum of codes that is certainly its own",
    "16: INamed has a name that is no string")

# What must not keep the reader of C++ for long: much that does not end, and very many interfaces and enums of one name.
ENDLESS = ("/* ", 'R"(', "enum {", "enum ", "class A : ", "class A {", "{", '"', "IMPLEMENT_META_INTERFACE(", "#\\\n",
           'IMPLEMENT_META_INTERFACE(A, "a.b") ',
           'class IA { enum { A = FIRST_CALL_TRANSACTION }; }; IMPLEMENT_META_INTERFACE(A, "a.b") ')


def aidl_of(text: str, name: str = "f") -> list[Interface]:
    reader = Aidl(name, text)
    reader.read()
    return reader.found


def own_of(text: str, name: str = "f") -> list[hal.Own]:
    reader = hal.Hal(name, text)
    reader.read()
    return reader.found


def hal_of(text: str) -> list[Interface]:
    return list(hal.with_parents(own_of(text)))


def refused_wrongly() -> Iterator[str]:
    """The sources that are not refused as they should be."""
    for reader, cases in ((aidl_of, WRONG_AIDL), (hal_of, WRONG_HAL)):
        for what, (text, line, words) in cases.items():
            try:
                came = f"the interfaces {reader(text)}"
            except Wrong as wrong:
                came = str(wrong)
            if not came.startswith(f"f:{line}: ") or words not in came:
                yield f"{what}: expected f:{line}: ..{words}, came {came[:200]}"


def cut_wrongly(step: int) -> Iterator[str]:
    """The cut sources that give an interface which is not the whole one."""
    for path in sorted([*SOURCES.rglob("*.aidl"), *SOURCES.rglob("*.hal")]):
        text = path.read_bytes().decode()
        found = aidl_of if path.suffix == ".aidl" else own_of
        whole = found(text)
        for length in range(0, len(text), step):
            try:
                came = found(text[:length])
            except Wrong:
                continue
            if came not in ([], whole):
                yield f"{path.name} cut after {length} characters gives {came}"


def by_hand(texts: dict[str, str]) -> list[Interface]:
    return cpp.interfaces_of(cpp.Source(name, text) for name, text in texts.items())[0]


def cut_by_hand_wrongly(step: int) -> Iterator[str]:
    """The cut sources in C++ that give an interface with other methods than the whole ones. Cut between two classes, a
    header is one of fewer classes."""
    texts = {path.name: path.read_bytes().decode() for path in sorted(SOURCES.rglob("cpp/*"))}
    whole = by_hand(texts)
    for name, text in texts.items():
        for length in range(0, len(text), step):
            for one in by_hand(texts | {name: text[:length]}):
                if one not in whole and one.name != "check.forms.ISome":
                    yield f"{name} cut after {length} characters gives {one}"


def slow_by_hand() -> Iterator[str]:
    """What keeps the reader of C++ too long: an effort with the square of the length takes minutes."""
    for what in ENDLESS:
        began = time.process_time()
        by_hand({"f": what * (280_000 // len(what))})
        if (took := time.process_time() - began) > 5:
            yield f"280 kB of {what!r} took {took:.1f} s"


# ---- the program


def ran(folder: pathlib.Path, *words: str) -> tuple[int, str, str]:
    status, out, err = answer([PROGRAM, *words], timeout=60, cwd=folder, encoding="utf-8")
    return status, out, err.replace("viewer/methods/table.py: ", "")


def answered_wrongly(room: pathlib.Path) -> Iterator[str]:
    """The command lines that are not answered as they should be."""
    stored = (SOURCES / "table.txt").read_text("utf-8")
    outside = "".join(line for line in stored.splitlines(True) if "cpp/outside.cpp" in line)
    for folder, texts in {
            "disagree": {"a.aidl": IN + "void a(); }", "b.aidl": IN + "\nvoid b(); }",
                         "c.aidl": "package q; interface J { void c(); }"},
            "ends": {"a.aidl": IN + "// a\r void wrong();\rvoid wrong();\nvoid b(); }"},
            "parents": {"I.hal": "package p@1.0; interface I { wrong(); };",
                        "K.hal": "package q@1.0; interface I { a(); };",
                        "J.hal": "package p@1.0;\nimport q@1.0;\ninterface J extends I { b(); };"},
            "agree": {"a.aidl": IN + "void a(); }", "b.aidl": IN + "void a();\nvoid b(); }",
                      "c.aidl": "interface q.J;"},
            "empty": {"a.txt": IN, "a.cpp": "enum { ONE = IBinder::FIRST_CALL_TRANSACTION };"},
            "bytes": {"a.aidl": b"package p;\n\n// \xff\ninterface I { void a(); }"},
            "name\u202e": {"a.aidl": IN + "}"}}.items():
        (room / folder).mkdir()
        for name, text in texts.items():
            (room / folder / name).write_bytes(text if isinstance(text, bytes) else text.encode())
    (room / "tab\t.aidl").write_text(IN + "}", "utf-8")
    os.mkfifo(room / "agree/d.aidl")
    added = "".join(f"p.I\t{code}\t{name}\t-\n" for name, code in ADDED.items())
    lines = (
        (SOURCES, ("aidl", "cpp", "hal"),
         (0, stored, "".join(f"cpp/forms.cpp:{what}: left out\n" for what in LEFT_OUT))),
        (SOURCES, ("cpp/forms.h", "cpp/outside.cpp"), (0, outside, "")),
        (room, ("disagree",), (0, "q.J\t1\tc\tdisagree/c.aidl:1\n" + added.replace("p.I", "q.J"),
                               "disagree/b.aidl:4: p.I: left out, as its code 1 is b here, and a at"
                               " disagree/a.aidl:3\n")),
        (room, ("agree",), (0, "p.I\t1\ta\tagree/a.aidl:3\np.I\t2\tb\tagree/b.aidl:4\n" + added,
                            "agree/d.aidl: left out, as it is no file\n"
                            "agree/c.aidl:1: q.J has no body here: left out\n")),
        (room, ("ends",), (0, "p.I\t1\tb\tends/a.aidl:4\n" + added, "")),
        (room, ("empty",), (1, "", "no .aidl or .hal file in empty, nor C++ that declares an interface\n")),
        (room, ("empty/a.txt",), (1, "", "empty/a.txt:1: neither .aidl nor .hal, nor C++\n")),
        (room, ("bytes",), (1, "", "bytes/a.aidl:3: not UTF-8\n")),
        (room, ("name\u202e",), (1, "", "name\\x202e/a.aidl:1: the name has a sign that can't be printed\n")),
        (room, ("tab\t.aidl",), (1, "", "tab\\x09.aidl:1: the name has a sign that can't be printed\n")),
        (room, ("none.aidl",), (4, "", "none.aidl: No such file or directory\n")),
        (room, ("none",), (4, "", "none: No such file or directory\n")))
    for (_, words, due), came in zip(lines, at_once(4, lambda line: ran(line[0], *line[1]), lines)):
        if came != due:
            yield f"viewer/methods/table.py {words}: expected {due!r}, came {came!r}"[:2000]
    for where, said in ((">&-", "standard output is closed"),
                        (">/dev/full", "standard output: No space left on device")):
        status, _, told = answer(["sh", "-c", f'"$0" ends {where}', PROGRAM], cwd=room, encoding="utf-8")
        if (status, told) != (4, f"viewer/methods/table.py: {said}\n"):
            yield f"viewer/methods/table.py with {where}: status {status}, {told}"
    of_j = [line.split("\t")[1:3] for line in ran(room, "parents")[1].splitlines() if line.startswith("p@1.0::J\t")]
    if of_j[:2] != [["1", "a"], ["2", "b"]]:
        yield f"J, whose parent is imported from another package, has {of_j[:2]}"


# ---- Debian's compilers

PACKAGES = ("aidl hidl-gen android-libbase android-libboringssl android-libcutils android-liblog libatomic1 libc6"
            " libgcc-s1 libstdc++6").split()


def fetched(folder: pathlib.Path) -> None:
    """Unpacks the packages of Debian sid into a folder, unless that was done before."""
    if (folder / "opened").exists():
        return
    for name in ("lists/partial", "archives/partial", "packages", "root"):
        (folder / name).mkdir(parents=True, exist_ok=True)
    (folder / "sources").write_text("deb http://deb.debian.org/debian sid main\n", "utf-8")
    apt = ["apt-get", "-qq", "-o", f"Dir::Etc::SourceList={folder}/sources", "-o", "Dir::Etc::SourceParts=/dev/null",
           "-o", f"Dir::State::Lists={folder}/lists", "-o", f"Dir::Cache={folder}/archives",
           "-o", "APT::Sandbox::User=root"]
    subprocess.run([*apt, "update"], check=True)
    subprocess.run([*apt, "download", *PACKAGES], check=True, cwd=folder / "packages")
    for package in (folder / "packages").glob("*.deb"):
        subprocess.run(["dpkg-deb", "-x", package, folder / "root"], check=True)
    (folder / "opened").touch()


# The folder of the sources of each compiler.
KIND = {"aidl": "aidl", "hidl-gen": "hal"}


def compiled(folder: pathlib.Path, program: str, *words: str | pathlib.Path) -> tuple[int, str]:
    """Runs a compiler with its own C library, in the folder of its sources. Returns its status and what it said."""
    library = folder / "root/usr/lib/x86_64-linux-gnu"
    status, out, err = answer([library / "ld-linux-x86-64.so.2", "--library-path", f"{library}:{library}/android",
                               folder / "root/usr/bin" / program, *words], cwd=SOURCES / KIND[program],
                              encoding="utf-8")
    return status, out + err


def codes_in(made: Iterable[pathlib.Path], method: str, interface: str) -> Codes:
    """The codes in files of a compiler. The methods of an interface come before its name there; what has no method,
    for example a parcelable, gives none."""
    found: Codes = set()
    for path in made:
        codes: set[tuple[int, str]] = set()
        for one in re.finditer(f"(?:{method})|(?:{interface})", path.read_text("utf-8")):
            if one["name"]:
                codes.add((1 + int(one["id"]), one["name"]))
            else:
                found |= {(one["interface"].replace("$", "."), *code) for code in codes}
                codes = set()
    return found


def java_codes(made: pathlib.Path) -> Codes:
    return codes_in(made.rglob("*.java"),
                    r"int TRANSACTION_(?P<name>\w+) = \(android\.os\.IBinder\.FIRST_CALL_TRANSACTION \+ (?P<id>\d+)\);",
                    r'String DESCRIPTOR = "(?P<interface>[^"]+)"')


def ndk_codes(made: pathlib.Path) -> Codes:
    return codes_in(made.rglob("*.cpp"), r"\(FIRST_CALL_TRANSACTION \+ (?P<id>\d+) /\*(?P<name>\w+)\*/\)",
                    r'::descriptor = "(?P<interface>[^"]+)"')


def hidl_codes(made: pathlib.Path) -> Codes:
    """In the code of hidl-gen the name of an interface comes first, and the ids are whole codes."""
    found: Codes = set()
    for path in made.rglob("*All.cpp"):
        text = path.read_text("utf-8")
        interface, = re.findall(r'::descriptor\("([^"]+)"\)', text)
        found |= {(interface, int(code), name) for code, name in re.findall(r"case (\d+) /\* (\w+) \*/:", text)}
    return found


def own_codes(interfaces: Iterable[Interface]) -> Codes:
    return {(one.name, method.code, method.name) for one in interfaces for method in one.methods}


def without_added(codes: Codes) -> Codes:
    """The codes without those that the compiler adds to an interface with a version."""
    added = {(code, name) for name, code in ADDED.items()}
    return {code for code in codes if code[1:] not in added}


def difference(what: str, due: Codes, came: Codes) -> Iterator[str]:
    if not due:
        yield f"{what}: the compiler gives no codes"
    if due != came:
        yield f"{what}: only the compiler has {sorted(due - came)}, only viewer/methods/table.py {sorted(came - due)}"


def aidl_wrongly(folder: pathlib.Path, room: pathlib.Path) -> Iterator[str]:
    paths = sorted(SOURCES.rglob("*.aidl"))
    ours = own_codes(one for path in paths for one in aidl_of(path.read_bytes().decode()))
    plain = without_added(ours)
    common = ("--min_sdk_version=current", "-I", ".", "-o")
    for language, codes, left_out in (("java", java_codes, ()), ("ndk", ndk_codes, ("IJava", "Opaque"))):
        out = room / language
        heads = () if language == "java" else ("-h", out)
        status, said = compiled(folder, "aidl", f"--lang={language}", *common, out, *heads,
                                *(path.relative_to(AIDL) for path in paths if path.stem not in left_out))
        if status != 0:
            yield f"aidl for {language} ended with {status}: {said[:500]}"
        yield from difference(f"aidl for {language}", codes(out), {
            code for code in plain if code[0].rpartition(".")[2] not in left_out})
    one = "check/forms/IPlain.aidl"
    compiled(folder, "aidl", "--lang=java", "--structured", "--version=2", "--hash=ab", *common, room / "stable", one)
    yield from difference("aidl with a version", java_codes(room / "stable"),
                          own_codes(aidl_of((AIDL / one).read_bytes().decode())))


def hidl_wrongly(folder: pathlib.Path, room: pathlib.Path) -> Iterator[str]:
    packages = "android.hidl.base@1.0 check.vault@1.0 check.vault@1.1 check.vault@2.0".split()
    ours = own_codes(hal.with_parents(
        own for path in SOURCES.rglob("*.hal") for own in own_of(path.read_bytes().decode(), path.name)))
    for package in packages:
        status, said = compiled(folder, "hidl-gen", "-o", room / "hidl", "-L", "c++-sources", "-p", ".", "-R", "-r",
                                "check:.", "-r", "android.hidl:.", package)
        if status != 0:
            yield f"hidl-gen of {package} ended with {status}: {said[:500]}"
    of_base = set(OF_BASE.values())
    yield from difference("hidl-gen", hidl_codes(room / "hidl"), {
        code for code in ours if code[0] == BASE or code[1] not in of_base})


PIECES = ('"', "'", "{", "}", "(", ")", "/*", "*/", "//", ";", "\n", "\r", "\\", "<", ">", "=", "@", ",", " 7 ",
          "oneway ", "const ", "interface ", "@nullable ", "/* { */", "/** ; */", "// }\n", "/*/ \" */", "/**/",
          "//*/\r\n")


def changed(text: str, chance: random.Random) -> str:
    """A source with one change: signs or lines are left out, doubled, put elsewhere, or put in."""
    at, other = sorted(chance.sample(range(len(text)), 2))
    lines = text.splitlines(keepends=True)
    line = chance.randrange(len(lines))
    rest = lines[:line] + lines[line + 1:]
    return chance.choice((
        lambda: text[:at] + text[at + chance.choice((1, 2, 5)):],
        lambda: text[:at] + chance.choice(PIECES) + text[at:],
        lambda: text[:other] + text[at:at + 9] + text[other:],
        lambda: "".join(rest),
        lambda: "".join([*rest[:line // 2], lines[line], *rest[line // 2:]])))()


def mutants_wrongly(folder: pathlib.Path, room: pathlib.Path, count: int) -> Iterator[str]:
    """The changed sources to which `aidl` and `viewer/methods/table.py` give different codes."""
    chance = random.Random(1)
    # By whether `aidl` takes a source, and whether the table's program does.
    names = {(True, True): "both", (True, False): "aidl alone", (False, True): "viewer/methods/table.py alone",
             (False, False): "neither"}
    took = dict.fromkeys(names.values(), 0)
    paths = [path for path in sorted(SOURCES.rglob("I*.aidl"))]
    for number in range(count):
        path = chance.choice(paths)
        text = changed(path.read_bytes().decode(), chance)
        there = room / f"mutant-{number}"
        source = there / path.relative_to(AIDL)
        source.parent.mkdir(parents=True)
        source.write_bytes(text.encode())
        status, _ = compiled(folder, "aidl", "--lang=java", "--min_sdk_version=current", "-I", there, "-I", ".",
                             "-o", there / "out", source)
        try:
            ours = without_added(own_codes(aidl_of(text)))
        except Wrong:
            ours = None
        took[names[status == 0, ours is not None]] += 1
        if status == 0 and ours is not None and ours != java_codes(there / "out"):
            yield f"{path.name}, change {number}: aidl gives {java_codes(there / 'out') ^ ours} differently:\n{text}"
    print("changed sources taken by:", ", ".join(f"{who} {n}" for who, n in took.items()))


def judge(given: argparse.Namespace, room: pathlib.Path, _: object) -> Iterator[str]:
    step = 1 if given.compilers else 11
    yield from (*refused_wrongly(), *cut_wrongly(step), *cut_by_hand_wrongly(step), *slow_by_hand(),
                *answered_wrongly(room))
    if given.compilers:
        folder = given.compilers.resolve()
        fetched(folder)
        yield from (*aidl_wrongly(folder, room), *hidl_wrongly(folder, room), *mutants_wrongly(folder, room, 300))


if __name__ == "__main__":
    check(judge, compilers={"metavar": "FOLDER", "type": pathlib.Path})
