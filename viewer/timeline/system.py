"""The processes and threads of the system that the processes and threads of a capture are. A capture has a process for
each opening of a device."""

from viewer.timeline.tracks import ProcessRow, ThreadRow, Tracks


class System:
    """Which processes of the capture are one process of the system, and which threads are one thread."""

    def __init__(self, tracks: Tracks):
        self.threads_of: dict[int, list[ThreadRow]] = {}
        for thread in tracks.threads:
            self.threads_of.setdefault(thread.upid, []).append(thread)
        # The processes of the system, each named by the upid of the first opening, and the last one of each pid.
        self.process_of: dict[int, int] = {}
        last: dict[int, ProcessRow] = {}
        for row in sorted(tracks.processes, key=lambda row: (row.opened or 0, row.upid)):
            pid = self.pid(row)
            before = last.get(pid)
            is_same = before is not None and not self.had_ended(before, row)
            self.process_of[row.upid] = self.process_of[before.upid] if before is not None and is_same else row.upid
            last[pid] = row
        self.lane_of: dict[int, tuple[int, int]] = {row.utid: (self.process_of[row.upid], self.tid(row))
                                                    for row in tracks.threads}
        self.names = {self.lane_of[row.utid]: row.name for row in tracks.threads if row.name is not None}
        self.rows = {row.upid: row for row in tracks.processes}
        self.openings: dict[int, list[ProcessRow]] = {}
        for row in tracks.processes:
            self.openings.setdefault(self.process_of[row.upid], []).append(row)
        self.several = tracks.several

    @staticmethod
    def pid(row: ProcessRow) -> int:
        """The system's number of a process, or that of the capture if it is not known."""
        return row.process if row.pid is None else row.pid

    @staticmethod
    def tid(row: ThreadRow) -> int:
        return row.thread if row.tid is None else row.tid

    def had_ended(self, before: ProcessRow, row: ProcessRow) -> bool:
        """Whether a process had ended, and not only its opening, before another one of its number came."""
        threads = self.threads_of.get(before.upid, [])
        return row.opened is not None and bool(threads) and all(
            thread.why == "ended" and thread.ended is not None and thread.ended <= row.opened for thread in threads)

    def pid_of(self, one: int) -> int:
        return self.pid(self.rows[one])

    def opening_of(self, upid: int) -> str:
        """What follows the name of something that an opening has, and its process maybe several times."""
        row, others = self.rows[upid], self.openings[self.process_of[upid]]
        device = f" of {row.device_name}" if self.several else ""
        alike = [other for other in others if other.device == row.device]
        return device if len(alike) == 1 else f"{device}, process {row.process} of the capture"
