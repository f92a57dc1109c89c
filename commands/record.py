"""The command `./record`. The recorder is built of it, too: as_c.py."""

from commands.option import FILE, PROCESS, VERSION, Command, Option, Part

TRIGGERS = ("hang:", "pool:", "refused:", "death:", "logcat:")

RECORD = Command(
    "record",
    "Records the Binder traffic of the whole system until PROGRAM ends, or until SIGINT or SIGTERM, into OUT-1.cap,"
    " OUT-2.cap and so on, the side list OUT.side, and copies of what the driver holds, OUT.begin.state and so on. It"
    " needs root, or CAP_BPF and CAP_PERFMON.",
    ("[OPTION].. [-- PROGRAM ARGUMENT..]", "--keep [-o OUT]",
     "--adb [SERIAL] [--detach | --fetch | --keep] [OPTION].. [-- PROGRAM ARGUMENT..]"),
    (("./record -o leak -- sleep 30", "records 30 seconds into leak-1.cap and so on"),
     ("./record --files 4 --keep-on hang:5s", "keeps the newest files, for good when a call hangs for 5 s"),
     ("./record --adb --view", "records a device until Ctrl-C, fetches the files and shows the page")),
    "docs/RECORD.md says more.",
    (Part("What is recorded", "RECORD.md#recording-by-example", (
        Option("--pid", "PID", "records only the openings of this process", PROCESS, many=True),
        Option("--only", "PROCESS", "records only the openings of processes of this name or user id: also of such as"
               " begin later; also beside --pid", many=True),
        Option("--device", "NAME", "records only this device: for example binder or /dev/binder",
               ("binder", "hwbinder", "vndbinder"), many=True),
        Option("--redact", "", "replaces what is secret: in the data of transactions and replies by bytes that tell"
               " nothing of it; and keeps of command lines only what programs are called, without folders"),
        Option("--no-attachments", "", "leaves out the data of transactions and replies"),
        Option("--stacks", "", "also records the stacks of calls that write, as far as programs keep frame pointers"))),
     Part("Files", "RECORD.md#recording-by-example", (
         Option("-o", "OUT", "the start of the files' names; by default `capture`", FILE),
         Option("--size", "BYTES", "the most bytes of a file: 65536 to 1073741824; by default 268435456"),
         Option("--files", "N", "keeps only the newest N files: 2 to 65536, each with a side list of its own,"
                " OUT-1.side and so on"),
         Option("--ring", "BYTES", "the size of the buffer between kernel and recorder: a power of two; by default"
                " 67108864"))),
     Part("While it records", "RECORD.md#live", (
         Option("--live", "", "shows what goes on: once a second calls by sender, receiver and method, calls that have"
                " been open for over a second and who has them, threads in use, oneways that wait, lost frames, and"
                " the rate on the disk. On a terminal a table that stays in place, whose keys its last line has; else"
                " lines"),
         Option("--methods", "FILE", "names methods in it: by a table of viewer/methods/table.py, as ./view takes;"
                " also for --view", FILE, many=True))),
     Part("What was before a fault", "RECORD.md#a-fault-that-comes-once-a-day", (
         Option("--keep", "", "has a running recorder keep its newest files: one that runs with --files keeps them as"
                " they are now, with side lists and copies of what the driver holds, in the folder OUT.kept-TIME,"
                " while it goes on; the one with this OUT, or the only one. SIGUSR1 does the same. With --adb it is"
                " the recorder on the device, and all folders that it has kept are fetched"),
         Option("--keep-on", "TRIGGER", "with --files keeps them as soon as there is what TRIGGER names: at most once"
                " a minute, and each TRIGGER once"
                "\nhang:TIME, a call that has been open for so long, as in hang:5s"
                "\npool:TIME, a process whose threads have all served for so long, while a call waits"
                "\nrefused:N/s, so many sends within a second that the driver refused"
                "\ndeath:NAME, the end of a process of this name"
                "\nlogcat:REGEX, a line of Android's log that fits, in the extended form of POSIX", TRIGGERS,
                many=True),
         Option("--keep-when-file", "PATH", "with --files keeps them when there is such a file, or it was changed",
                FILE),
         Option("--keep-most", "N", "keeps no more while there are so many of these folders: 1 to 10000; by default"
                " 8"))),
     Part("Before it records", "RECORD.md#what-a-recording-needs", (
         Option("--check", "", "records nothing: says in a line each what a recording with these options lacks, or"
                " that the system is ready for it, and with which kernel, driver and devices"),
         VERSION)),
     Part("On a device", "RECORD.md#on-a-device", (
         Option("--adb", "[SERIAL]", "does all this on a device that adb reaches: SERIAL can be left out if it is the"
                " only one, and may also be given as --adb=SERIAL, by -s SERIAL, or in ANDROID_SERIAL. It puts the"
                " recorder there, becomes root, says what the device lacks, records until PROGRAM ends or until"
                " Ctrl-C, fetches the files to OUT, and removes them there. It comes before all other options."
                " docs/RECORD.md says more"),
         Option("--detach", "", "begins a recording that goes on without adb: by default with --files 4 --size"
                " 67108864"),
         Option("--fetch", "", "ends it, and fetches it; or fetches what was recorded until the connection was lost"),
         Option("--view", "", "makes the page of what was fetched, as ./view does, and opens it in the browser"),
         Option("--no-names", "", "does not ask the device's managers for the names of services and packages; without"
                " it the page has those of all services, also of those that registered before the recording, and shows"
                " the packages of each process's user"),
         Option("--collect", "[=NAME,..]", "has all apps collect their garbage 2 s before the end: or the processes of"
                " these names, --collect=NAME,NAME; what an app keeps then is no garbage that waits for its"
                " collection")))),
    (("0", "as PROGRAM, whose status is given, or 128 and the number of its signal; without PROGRAM, recorded"),
     ("1", "no recording was made, or could be"),
     ("64", "a word is wrong")))
