"""The command `./audit`."""

from commands.option import HELP, VERSION, Command, Option, Part, Verb

AUDIT = Command(
    "audit",
    "Reads a capture of Binder traffic, and reports which calls never got a reply, which references are never"
    " released, which buffers are never freed, and more. Of a malformed capture it writes one line instead, which"
    " names the first malformed record.",
    (),
    (("./audit report capture-*.cap > report.txt", "writes the report"),
     ("./audit first-fault capture-*.cap", "says whether the capture is whole")),
    "FILE.. are the parts of one capture, in order, at most 256. A part named - is a file of that name; standard input"
    " is /dev/stdin.",
    (Part("Options of report", "REPORT.md#the-command-line", (
        Option("--workers", "N", "the number of threads: 1 to 64, by default 4. It does not change what is written"),
        Option("--piece", "N", "how many frames a thread takes at a time: 1 to 65536, by default 256. It does not"
               " change what is written")), ("report",)),
     Part("Alone", "REPORT.md#the-command-line", (HELP, VERSION))),
    (("0", "a report, whatever it finds, or `no malformed record`"),
     ("2", "the capture is malformed, and the line names where"),
     ("3", "an allocation failed"),
     ("4", "a file can't be opened or read, the files have more than 1,073,741,824 bytes together, or the answer can't"
      " be written"),
     ("64", "the command line is not valid")),
    (Verb("report", "FILE..", "writes the report to standard output, or the line of the first malformed record"),
     Verb("first-fault", "FILE..", "writes that line, or `no malformed record`")))
