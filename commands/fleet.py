"""The command `./fleet`."""

from commands.option import FILE, VERSION, Command, Option, Part, Verb

FLEET = Command(
    "fleet",
    "Keeps what is found in many captures, and compares builds and devices.",
    (),
    (("./fleet one capture-*.cap --build b10 --device d1 -o d1.json", "makes the result of a capture"),
     ("./fleet load lab.db results/", "puts results into a lab"),
     ("./fleet compare lab.db b09 b10", "prints what build b10 has, and b09 has not")),
    "docs/BUILDS.md explains all of it.",
    (Part("Options of one", "BUILDS.md#a-lab", (
        Option("--side", "SIDE", "the side list, as for ./view", FILE, many=True),
        Option("--methods", "FILE", "names methods, as for ./view: for all captures of a lab, or for none", FILE,
               many=True),
        Option("--build", "BUILD", "the build that was recorded"),
        Option("--device", "DEVICE", "the device that it ran on"),
        Option("--seconds", "N", "how long a capture may take: by default 3600 s")), ("one",)),
     Part("Options of one and page", "BUILDS.md#a-lab", (
         Option("-o", "FILE", "the file of the result, or of the page", FILE),), ("one", "page")),
     Part("Options of compare and page", "BUILDS.md#two-builds", (
         Option("--rate", "P", "of what is told P of 100 may be chance: by default 5; 100 tells each difference"),
         Option("--share", "P", "what is told is on P of 100 of the devices of a build: by default 5,"),
         Option("--least", "N", "and on at least N: by default 2"),
         Option("--before", "N", "first seen is what is real and in no capture of the N builds before: by default 10"),
         Option("--known", "FILE", "defects that are known: a key a line, with a comment; they do not fail. But if the"
                " comment begins with until=BUILD, those that come back in a later build do. Beside it owner=WHO and"
                " bug=NUMBER",
                FILE),
         Option("--renamed", "FILE", "names that changed: a line OLD = NEW each, of processes, interfaces and methods",
                FILE)), ("compare", "page")),
     Part("Options of compare, page and ask", "BUILDS.md#a-lab", (
         Option("--order", "FILE", "the order of builds: a line each, the oldest first; their names, or commits that"
                " their names have", FILE),), ("compare", "page", "ask")),
     Part("Options of compare", "BUILDS.md#a-gate-in-ci", (
         Option("--fail-on", "WHAT", "what fails: real or maybe, by default maybe, is the weakest verdict of what is"
                " new or worse that does; and grown or slower, or with a factor, as grown:4, for what is so many times"
                " as much; and first, for what is first seen", ("real", "maybe", "grown", "slower", "first"),
                many=True),
         Option("--usable", "P", "fails if fewer than P of 100 captures of a build count; others are told anyway"),
         Option("--all", "", "also prints what is the same"),
         Option("--json", "", "prints all of a comparison in JSON, in place of lines"),
         Option("--junit", "FILE", "also writes a comparison as JUnit does: a case a defect, known ones skipped, and"
                " an error for each capture that does not count", FILE),
         Option("--sarif", "FILE", "also writes what is new, worse or back, and what else fails, as SARIF", FILE)),
          ("compare",)),
     Part("Alone", "BUILDS.md#a-lab", (VERSION,))),
    (("0", "done"),
     ("1", "builds can't be compared, the lab has no such build or defect, or the viewer ended without an answer"),
     ("3", "memory was refused"),
     ("4", "a file can't be read or written, or is not what it should be"),
     ("10", "something is new, worse or back, or what --fail-on and --usable name"),
     ("64", "the command line is not valid")),
    (Verb("one", "FILE.. --build BUILD --device DEVICE -o RESULT.json", "makes the result of a capture: defects, who"
          " talks to whom, what is held; whole or not at all, and at most 64 KB when it is packed. If the capture is"
          " malformed or takes too long, or its side list is wrong or of another one, its result says so. If another"
          " run may do better, there is none: a file changes meanwhile, the disk is full, or the viewer is killed"),
     Verb("load", "LAB.db RESULT.json..", "loads results into a lab: those that are named, or in folders; a lab is one"
          " file of SQLite. Each capture counts once, however often it is loaded, and in any order"),
     Verb("compare", "LAB.db OLD.. NEW", "compares builds: prints what is new, worse, grown or gone in build NEW since"
          " build OLD, or since several builds, if it is more than chance, what is first seen in NEW, and which"
          " methods are slower or faster; with the fields separated by tabs: what, verdict, kind, process, path,"
          " captures of OLD and of NEW, devices of both, findings an hour or times of both, how likely chance does as"
          " much, whether it is known, key; then counts"),
     Verb("ask", "LAB.db QUESTION [NAME=VALUE]..", "answers a question: one that has a name, new (old= new= devices=),"
          " since, rate (defect=), longest, holds, called (defect=), where (defect=); or SQL. Values stand for :NAME"),
     Verb("page", "LAB.db -o LAB.html", "makes a page of a lab: one HTML file, with each defect and its share of"
          " captures by build as a picture, what is new, grown, gone or first seen, and the captures that show it"),
     Verb("each", "SQL KEPT.db..", "asks databases one question: those that ./view kept; each line has the name of its"
          " database in front")))
