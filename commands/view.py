"""The command `./view`."""

from commands.option import FILE, FOLDER, VERSION, Command, Option, Part

VIEW = Command(
    "view",
    "Shows a capture: makes a page of it for a browser, prints what it finds, or answers one question.",
    ("FILE.. [OPTION]..",),
    (("./view capture-*.cap", "makes the page capture-1.cap.html"),
     ("./view capture-*.cap --groups", "prints what it finds, and makes no page"),
     ("./view capture-*.cap --last 5s --trace out.pftrace", "a timeline of the last seconds for ui.perfetto.dev")),
    "FILE.. are the parts of one capture, in order. The page replaces an earlier page of the capture, and no other"
    " file. None of it is part of the auditor: only the rows of the report on the page are proved. A page takes Jinja2"
    " (apt-get install python3-jinja2).",
    (Part("What is read", "PAGE.md#files-and-options", (
        Option("--side", "SIDE", "the side list of the recorder, for times, names and ends; of ./record --files one"
               " for each FILE. Without it OUT-N.side of each OUT-N.cap is taken, or OUT.side, if it is there, and a"
               " line says so",
               FILE, many=True, one_of="side"),
        Option("--no-side", "", "takes no side list", one_of="side"),
        Option("--methods", "FILE", "names methods: a table that viewer/methods/table.py made of the sources of"
               " interfaces",
               FILE, many=True),
        Option("--aidl", "SOURCE", "names methods and their arguments: a file or a folder of .aidl", FILE, many=True),
        Option("--arguments", "", "shows what transactions and replies say: on the page in open groups, and in the"
               " database that --database keeps; by the sources of --aidl, or without them the texts in the data"),
        Option("--symbols", "FOLDER", "names the functions of stacks: by the symbols of files in this folder that have"
               " the same build-id; it takes llvm-symbolizer or addr2line", FOLDER, many=True))),
     Part("What is made", "PAGE.md#files-and-options", (
         Option("-o", "PAGE.html", "the file of the page; by default FILE.html", FILE),
         Option("--groups", "", "prints the groups of findings, and makes no page. At a terminal it prints columns: the"
                " groups that are real or maybe, when each began, and the sentences of its rules; else a line each,"
                " with the fields separated by tabs: verdict, kind, n, all, device, process, path, rule, note, name,"
                " key"),
         Option("--columns", "", "with --groups prints the columns to a file or a pipe, too"),
         Option("--all", "", "with --groups also has the groups that are explained or normal in the columns"),
         Option("--database", "KEEP.db", "keeps the database, which docs/DATABASE.md explains", FILE),
         Option("--slow", "TIME", "the page lists calls of main threads that took so long or longer, 16ms or 1s; 100ms"
                " if it is not given"),
         Option("--timing", "", "says at the end how many seconds each phase took, and each statement of the rules"
                " that took a hundredth of all or more"),
         VERSION)),
     Part("Part of a capture", "PAGE.md#a-part-of-the-time", (
         Option("--last", "TIME", "shows the last time of the recording: 5s, 500ms or 2m; the groups that have a"
                " finding then, or a call that was open, and the calls that were under way, on the page and by"
                " --groups; and narrows a timeline. All else is of the whole capture, also --against and --fail-on",
                one_of="time"),
         Option("--between", "BEGIN END", "the same from a time of day to another one: 14:03:17 14:03:22.117, if need"
                " be with the day, '11-28 14:03:17' or '2026-11-28 14:03:17', in the zone of this system or of TZ; or"
                " seconds since the first frame, +2.288 +5", one_of="time"),
         Option("--around", "PLACE", "the same of a second before and after a frame: the one that has this place; or"
                " of a hundred frames if there are no times", one_of="time"),
         Option("--process", "PROCESS", "shows what a process has or causes: the groups, and its calls, on the page"
                " and by --groups; and narrows a timeline to its threads. PROCESS is a number or a name, or else a"
                " part of the name; those of one name are all meant. All else is of the whole capture"))),
     Part("One question, without a page", "PAGE.md#one-call", (
         Option("--call", "CALL", "prints where the time of a call went: each call that was made within it, in whatever"
                " process, with its own time, and who had the threads of a server while a call waited for one. CALL is"
                " a place; or a time of day or seconds since the first frame, and a process: '14:03:17.2"
                " com.example.app' is the longest call there"),
         Option("--absent", "METHOD", "prints whether a process called a method: and if not, whether such a call may be"
                " missing from the capture, and on what that rests, a line each. METHOD is as the page writes it,"
                " IHello.sayHello, 'IHello code 7' or 'code 7'; --process says who, --between or --last when"))),
     Part("Two captures, and a gate", "BUILDS.md#two-captures", (
         Option("--against", "OLD.db", "prints what is new, worse, grown or gone since another capture: the one of"
                " which --database kept OLD.db. It makes no page without -o. A line has, separated by tabs: what,"
                " verdict, n there, n here, kind, process, path, place, key; then come methods that are slower or"
                " faster, and counts", FILE),
         Option("--fail-on", "VERDICT", "ends with status 10 if a defect is real: or with `maybe` if one is real or"
                " maybe; with --against, only if one that is new or worse is", ("real", "maybe")),
         Option("--known", "FILE", "defects that are known: a key a line, with a comment; --fail-on does not count"
                " them. A line names each that does not occur", FILE))),
     Part("A timeline", "PAGE.md#a-timeline", (
         Option("--trace", "OUT", "writes a timeline, and makes no page without -o: OUT.pftrace and OUT.pftrace.gz are"
                " Perfetto's own format, for ui.perfetto.dev and its trace processor, OUT.json.gz is for"
                " chrome://tracing too", FILE),
         Option("--names", "android", "gives slices the names by which Perfetto's module android.binder finds them",
                ("android",)),
         Option("--thread", "N", "narrows it to a thread"),
         Option("--from", "N", "narrows it to the frames from this one on"),
         Option("--to", "N", "narrows it to the frames up to this one")))),
    (("0", "everything is written"),
     ("1", "the database, the timeline or another file with the name of the page exists already, the side list belongs"
      " to another capture, the keys of OLD.db are not like those here, a program can't be built, what a page takes is"
      " missing, or the recording has nothing of the time that is asked for"),
     ("2", "the capture is malformed, or no capture, also with --fail-on: what is written shows what comes before its"
      " first fault, which a line on standard error names"),
     ("3", "memory was refused"),
     ("4", "a file can't be opened, read or written, is a pipe or changes while it is read, has more than 1 GiB with"
      " the others, or a table of methods, a source of --aidl, OLD.db or a file of known defects is wrong"),
     ("10", "there is what --fail-on names"),
     ("64", "the command line is not valid")))
