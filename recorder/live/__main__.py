"""`record --live` on a terminal, and with names of methods. The script `record` calls this folder:

    python3 recorder/live RECORD PROGRAM [WORD]..

PROGRAM is the recorder, which is called by the name RECORD with these words.
"""

import sys

sys.dont_write_bytecode = True
sys.path[0] = f"{sys.path[0]}/../.."
from viewer.whole_python import need_whole_python  # noqa: E402
need_whole_python("record", "curses")
from recorder.live import here  # noqa: E402

sys.exit(here.main(sys.argv[1], sys.argv[2], sys.argv[3:]))
