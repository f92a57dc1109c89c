"""The command `./listing`."""

from commands.option import FILE, FOLDER, VERSION, Command, Option, Part

WRITE_OR_READ, TAB = ("write", "read"), ("tab",)

LISTING = Command(
    "listing",
    "Lists the records of a capture, a line each: place, sequence, device, process, thread, name, and the fields by"
    " name; last, the interface that a transaction names at the begin of its data.",
    ("FILE.. [OPTION]..", "--tables FOLDER FILE..", "--table NAME FILE.."),
    (("./listing capture-1.cap --at 16344", "the record at a place, with its frame, fields, objects and bytes"),
     ("./listing capture-1.cap --process 351 --handle 7", "what a process does with a handle"),
     ("./listing capture-1.cap --around 16344 --code BR_TRANSACTION", "what was called about then")),
    "FILE.. are the parts of one capture, in order. A malformed capture is listed up to its first fault. A last line"
    " names the fault as the auditor does. docs/ENVELOPE.md and docs/COMMANDS.md have the format of a capture. Numbers"
    " are decimal, or hexadecimal after 0x. Each option narrows what is listed. If an option is given several times,"
    " it is enough to fit one of its values.",
    (Part("Where", "REPORT.md#from-a-row-to-its-record", (
        Option("--at", "PLACE", "the record that has the byte at PLACE, or whose attachment has it: all its fields"
               " with their places, its objects, and a dump of its bytes in hexadecimal", many=True,
               one_of="place"),
        Option("--arguments", "", "with --at also what the transaction or reply of the record says: each value with"
               " its place. The proved program has no part in these lines"),
        Option("--aidl", "SOURCE", "names the values of --arguments, and the methods of --names: a file or a folder of"
               " .aidl; without one --arguments has the texts in the data", FILE, many=True),
        Option("--frame", "PLACE", "the records of the frame that has the byte at PLACE", many=True,
               one_of="place"),
        Option("--call", "PLACE", "the records of a thread from the opener of a call to its closer; the opener has the"
               " byte at PLACE", many=True, one_of="place"))),
     Part("Who", "REPORT.md#from-a-row-to-its-record", (
         Option("--process", "P", "records of this process", many=True),
         Option("--thread", "T", "records of this thread", many=True),
         Option("--device", "D", "records of this device; in version 1 the device is 0", many=True))),
     Part("When", "PAGE.md#a-part-of-the-time", (
         Option("--from", "N", "records of frames from this sequence on", many=True),
         Option("--to", "N", "records of frames up to this sequence", many=True),
         Option("--last", "TIME", "records of the last time of the recording: 5s, 500ms or 2m; by the side list, which"
                " is also found if it lies beside the capture by its name", one_of="time"),
         Option("--between", "BEGIN END", "records from a time of day to another one: 14:03:17 14:03:22.117, with the"
                " day if need be, '11-28 14:03:17'; or by seconds since the first frame, +2.288 +5", one_of="time"),
         Option("--around", "PLACE", "records of a second before and after a frame: the one that has the byte at"
                " PLACE; or without a side list of a hundred frames", one_of="time"))),
     Part("What", "REPORT.md#from-a-row-to-its-record", (
         Option("--direction", "write|read", "records of frames of this direction", WRITE_OR_READ, many=True),
         Option("--code", "NAME", "records of this name, for example BC_ACQUIRE or OPAQUE, or of this code word",
                many=True),
         Option("--handle", "H", "records that name the handle: as the target, as the handle that is counted or"
                " watched, or in an object of the attachment", many=True),
         Option("--cookie", "X", "records that name the cookie, also in an object", many=True),
         Option("--node", "PTR", "records that name the node by its ptr, also in an object", many=True),
         Option("--address", "A", "transactions and replies with this buffer, and the frees of it", many=True),
         Option("--flag", "NAME", "transactions and replies with this flag, for example TF_ONE_WAY", many=True),
         Option("--larger", "BYTES", "transactions and replies with more than this many bytes of data", many=True),
         Option("--interface", "NAME", "transactions whose data begin with this name of an interface", many=True))),
     Part("Form", "REPORT.md#from-a-row-to-its-record", (
         Option("--objects", "", "after the line of a record, a line for each object of its attachment"),
         Option("--form", "tab", "columns separated by tabs: place, sequence, device, process, thread, direction,"
                " name, code word, result, error, priority, handle, ptr, cookie, address, code, flags, sender_pid,"
                " sender_euid, data_size, offsets_size, buffer, buffers_size, secctx, is_frozen, interface; a column"
                " is empty if the record has no such field", TAB),
         Option("--side", "FILE", "at the end of each line, what the side list of ./record says: time=, in nanoseconds"
                " of CLOCK_MONOTONIC, pid=, tid=, and the names, thread= and process=; with --form tab, five more"
                " columns",
                FILE),
         Option("--names", "", "at the end of each line, before what --side adds, method= and service=: the method"
                " that a transaction calls, if its name is built in or in a source of --aidl, and the service that it"
                " asks the manager of services about; with --form tab, two more columns"))),
     Part("Tables", "DATABASE.md#raw-tables", (
         Option("--tables", "FOLDER", "writes each raw table of docs/DATABASE.md to FOLDER/NAME.rows, and of a"
                " malformed capture what comes before its first fault to FOLDER/before-fault.cap", FOLDER,
                one_of="table"),
         Option("--table", "NAME", "writes the raw table NAME to standard output", one_of="table"),
         VERSION))),
    (("0", "listed"),
     ("1", "nothing is at PLACE, or the recording has nothing of the time"),
     ("2", "the capture is malformed"),
     ("3", "memory was refused"),
     ("4", "a file can't be opened or read, or has more than 1 GiB, the side list is of another version than 1, 2 or"
      " 3, a source of --aidl is wrong, or the listing can't be written"),
     ("64", "the command line is not valid")))
