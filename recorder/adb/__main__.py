"""`record --adb`. The script `record` calls this folder, with its own name as RECORD:

    python3 recorder/adb RECORD [SERIAL] [OPTION].. [-- PROGRAM ARGUMENT..]
"""

import sys

sys.dont_write_bytecode = True
sys.path.insert(1, f"{sys.path[0]}/../..")
from viewer.whole_python import need_whole_python  # noqa: E402
need_whole_python("record", "shlex")
import record_adb  # noqa: E402

sys.exit(record_adb.main(sys.argv[1], sys.argv[2:]))
