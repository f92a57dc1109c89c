"""The command `viewer/methods/table.py`."""

from commands.option import VERSION, Command, Part

METHODS = Command(
    "methods",
    "Makes a table of the methods of interfaces, from their sources.",
    ("SOURCE..",),
    (("viewer/methods/table.py frameworks/base/core/java > methods.txt", "takes all sources of a folder"),),
    "SOURCE.. are .aidl and .hal files, sources of C++ (.h, .hpp, .cc and .cpp), and folders, in which it takes all of"
    " them, but of C++ only what declares an interface. It writes to standard output a line for each method, in the"
    " order of interfaces and codes, with four fields separated by tabs: interface (as calls name it), code, method,"
    " and source (file and line, or `-` if it is in no source). What is left out is told on standard error, for"
    " example an interface of which two sources give one code to two methods.",
    (Part("Alone", "PAGE.md#names-of-methods", (VERSION,)),),
    (("0", "the table is written"),
     ("1", "a source is wrong, and the line on standard error names its file and line; or no source is there. Then"
      " nothing is written to standard output"),
     ("4", "a file can't be read, or the table can't be written"),
     ("64", "the command line is not valid")))
