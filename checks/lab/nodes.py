"""A lab of 60 captures by lab/Makefile and by Slurm on this machine, while disks become full, and jobs, make itself, a
task and a node are killed. In the end each capture has one result, and the right one."""

import contextlib
import os
import pathlib
import random
import signal
import socket
import sqlite3
import subprocess
import time
from types import FrameType
from typing import Callable, Iterator

from checks.kit.checking import Fail, compare
from checks.kit.programs import preloadable
from checks.lab.full_disk import Disk
from checks.viewer.sessions.defect_cases import keeps_replies
from checks.viewer.sessions.session import Session

BUILDS, DEVICES, SESSIONS = 2, 10, 3
COUNT = BUILDS * DEVICES * SESSIONS

# How many of them are cut, and how many have a side list that is empty, or that of another one.
MALFORMED, FAILED = 1, 2

CONFIGURATION = """ClusterName=fleet
SlurmctldHost={host}(127.0.0.1)
SlurmctldPort=17100
AuthType=auth/munge
AuthInfo=socket={room}/munge.socket
SlurmUser=root
SlurmdUser=root
StateSaveLocation={room}/state
SlurmdSpoolDir={room}/spool.%n
SlurmctldPidFile={room}/slurmctld.pid
SlurmdPidFile={room}/slurmd.%n.pid
SlurmctldLogFile={room}/slurmctld.log
SlurmdLogFile={room}/slurmd.%n.log
ProctrackType=proctrack/linuxproc
TaskPlugin=task/none
JobAcctGatherType=jobacct_gather/none
SelectType=select/cons_tres
SelectTypeParameters=CR_CPU
MpiDefault=none
ReturnToService=2
SlurmdTimeout=20
KillWait=5
MinJobAge=600
NodeName=n1 NodeHostname={host} NodeAddr=127.0.0.1 Port=17101 CPUs=1 State=UNKNOWN
NodeName=n2 NodeHostname={host} NodeAddr=127.0.0.1 Port=17102 CPUs=1 State=UNKNOWN
PartitionName=lab Nodes=n1,n2 Default=YES MaxTime=INFINITE State=UP
"""


def session_of(number: int) -> tuple[bytes, str]:
    """A small capture, and its side list. No two are alike."""
    s = Session()
    keeps_replies(s, first=100 + 10 * number, noise=number % 7)
    return s.capture(), s.side()


def make_captures(lab: pathlib.Path) -> None:
    for number in range(COUNT):
        build, device = f"b{number % BUILDS + 1}", f"d{number // BUILDS % DEVICES + 1}"
        capture, side = session_of(number)
        if number == 0:
            capture = capture[:-5]
        elif number <= FAILED:
            side = "" if number == 1 else session_of(number + 100)[1]
        at = lab / build / device / f"s{number}"
        at.parent.mkdir(parents=True, exist_ok=True)
        at.with_name(f"{at.name}-1.cap").write_bytes(capture)
        at.with_name(f"{at.name}.side").write_text(side, "utf-8")


def check_results(what: str, lab: pathlib.Path, fail: Fail) -> None:
    """All captures have a result, each once, and the lab has them."""
    results = [path.relative_to(lab / "results").with_suffix("") for path in (lab / "results").rglob("*.json")]
    due = sorted(str(path.relative_to(lab)).replace("-1.cap", "") for path in lab.glob("*/*/*-1.cap"))
    compare(f"{what}: results", sorted(map(str, results)), due, fail)
    database = sqlite3.connect(lab / "LAB.db")
    counts = database.execute("SELECT count(*), count(DISTINCT digest), sum(malformed NOTNULL), sum(failed NOTNULL)"
                              " FROM capture").fetchone()
    compare(f"{what}: captures in the lab", counts, (COUNT, COUNT, MALFORMED, FAILED), fail)
    why = [why for why, in database.execute("SELECT failed FROM capture WHERE failed NOTNULL ORDER BY 1")]
    compare(f"{what}: why captures have failed", ("is empty" in " ".join(why), "another capture" in " ".join(why)),
            (True, True), fail)
    found = database.execute("SELECT count(DISTINCT capture) FROM found").fetchone()
    compare(f"{what}: captures with the fault", found, (COUNT - FAILED,), fail)
    halves = [path.name for path in lab.rglob(".*.json.*")]
    print(f"{what}: {counts[0]} captures, {counts[1]} digests, {len(halves)} unfinished files that nothing reads",
          flush=True)


# ---- one machine


def in_session(leader: int) -> list[int]:
    """The processes of a session."""
    found = []
    for path in pathlib.Path("/proc").glob("[0-9]*/stat"):
        with contextlib.suppress(OSError):
            if int(path.read_text("utf-8").rpartition(")")[2].split()[3]) == leader:
                found.append(int(path.parent.name))
    return found


def make(folder: pathlib.Path, lab: pathlib.Path, environment: dict[str, str]) -> subprocess.Popen:
    return subprocess.Popen(["make", "-k", "-j2", "-s", "-f", str(folder / "lab/Makefile"), f"LAB={lab}"],
                            start_new_session=True, stdout=subprocess.DEVNULL, stderr=subprocess.DEVNULL,
                            env=environment)


def kill(pids: list[int]) -> int:
    for pid in pids:
        with contextlib.suppress(ProcessLookupError):
            os.kill(pid, signal.SIGKILL)
    return len(pids)


def check_by_make(folder: pathlib.Path, room: pathlib.Path, fail: Fail) -> None:
    """Make runs while the disk of results becomes full; then it is killed alone, and its jobs go on; then with all its
    jobs; then the disk of scratch becomes full, which Python leaves for another one; and then it does the rest."""
    lab, begun, library = room / "lab", time.monotonic(), preloadable(room, "lab/full_disk.c")
    make_captures(lab)
    scratch, results = Disk(room, "scratch", library), Disk(lab, "results", library)
    of_scratch = {"TMPDIR": str(scratch.folder)}

    def made() -> int:
        return len(list(results.folder.glob("*/*/*.json")))

    def run_full(what: str, disk: Disk, number: int) -> None:
        before = made()
        status = make(folder, lab, {**disk.environment(number), **of_scratch}).wait(900)
        print(f"make, the disk of {what} becomes full: status {status}, {made() - before} results", flush=True)
        compare(f"make, the disk of {what} becomes full: status, not all done", (status, made() < COUNT), (2, True),
                fail)

    run_full("results", results, 45)
    killed = 0
    for alone in True, False:
        running, before = make(folder, lab, {**os.environ, **of_scratch}), made()
        while running.poll() is None and made() < before + 8:
            time.sleep(0.1)
        killed += kill([running.pid] if alone else in_session(running.pid))
        running.wait()
        while left := in_session(running.pid):  # alone: its jobs end, and nothing begins; or what began meanwhile
            kill([] if alone else left)
            time.sleep(0.1)
    print(f"make, killed alone and with its jobs: {killed} processes, {made()} results", flush=True)
    run_full("scratch", scratch, 300)
    compare("make, the last call", make(folder, lab, {**os.environ, **of_scratch}).wait(900), 0, fail)
    scratch_left = [path.name for path in scratch.folder.iterdir()]
    print(f"make: {time.monotonic() - begun:.0f} s, left in scratch: {scratch_left}", flush=True)
    check_results("make", lab, fail)


# ---- Slurm


class Cluster:
    """munge, slurmctld and two nodes on loopback."""

    def __init__(self, room: pathlib.Path):
        self.room = room
        self.conf = room / "slurm.conf"
        self.conf.write_text(CONFIGURATION.format(host=socket.gethostname().partition(".")[0], room=room), "utf-8")
        (room / "state").mkdir()
        (room / "munge.key-file").write_bytes(random.randbytes(1024))
        (room / "munge.key-file").chmod(0o600)
        self.environment = {**os.environ, "SLURM_CONF": str(self.conf)}

    def begin(self, *words: object) -> subprocess.Popen:
        with open(self.room / "said", "ab") as said:
            return subprocess.Popen(list(map(str, words)), env=self.environment, stdin=subprocess.DEVNULL, stdout=said,
                                    stderr=said, start_new_session=True)

    def start(self) -> None:
        self.begin("munged", "--foreground", "--force", *(f"--{name}={self.room}/munge.{name}" for name in (
            "key-file", "socket", "pid-file", "log-file", "seed-file")))
        self.wait(lambda: (self.room / "munge.socket").exists())
        self.begin("slurmctld", "-D", "-f", self.conf)
        self.nodes = {name: self.begin("slurmd", "-D", "-N", name, "-f", self.conf) for name in ("n1", "n2")}
        self.wait(lambda: self.asked("sinfo", "-h", "-N", "-o", "%N %t").split("\n")[:2] == ["n1 idle", "n2 idle"])

    def asked(self, *words: object) -> str:
        return subprocess.run(list(map(str, words)), env=self.environment, capture_output=True, encoding="utf-8").stdout

    def wait(self, until: Callable[[], bool], seconds: float = 60) -> None:
        end = time.monotonic() + seconds
        while not until():
            if time.monotonic() > end:
                raise SystemExit(f"checks/fleet: the cluster: {(self.room / 'said').read_text('utf-8')[-2000:]}")
            time.sleep(0.2)

    def processes(self, *texts: str) -> list[int]:
        """The processes of this cluster that have these texts in their environment."""
        found = []
        for path in pathlib.Path("/proc").glob("[0-9]*/environ"):
            with contextlib.suppress(OSError):
                has = path.read_bytes().split(b"\0")
                if all(text.encode() in has for text in (f"SLURM_CONF={self.conf}", *texts)):
                    found.append(int(path.parent.name))
        return found

    def kill(self, *texts: str) -> int:
        """Kills the processes that have these texts, and returns how many it found."""
        some = self.processes(*texts)
        for pid in some:
            with contextlib.suppress(ProcessLookupError):
                os.kill(pid, signal.SIGKILL)
        return len(some)

    def stop(self) -> None:
        """Kills all that it started, and what that started meanwhile."""
        while self.kill():
            time.sleep(0.1)


@contextlib.contextmanager
def stopped_first(made: Cluster) -> Iterator[None]:
    """A signal that ends the check stops the cluster before."""
    before = {number: signal.getsignal(number) for number in (signal.SIGINT, signal.SIGTERM)}

    def stop(number: int, frame: FrameType | None) -> None:
        made.stop()
        before[number](number, frame)
    for number in before:
        signal.signal(number, stop)
    try:
        yield
    finally:
        for number, handler in before.items():
            signal.signal(number, handler)


@contextlib.contextmanager
def cluster(room: pathlib.Path) -> Iterator[Cluster]:
    room.mkdir()
    made = Cluster(room)
    with stopped_first(made):
        try:
            made.start()
            yield made
        finally:
            made.stop()


def check_by_slurm(folder: pathlib.Path, room: pathlib.Path, task: int, fail: Fail) -> None:
    """By tasks of so many sessions, or with 0 of as many as slurm.sh finds that take a minute."""
    lab, begun = room / "lab", time.monotonic()
    make_captures(lab)
    with cluster(room / "cluster") as made:
        print(f"slurm: two nodes after {time.monotonic() - begun:.0f} s", flush=True)
        begun = time.monotonic()
        asked = subprocess.Popen([str(folder / "lab/slurm.sh"), str(lab), *[str(task)] * bool(task)],
                                 env=made.environment)
        results = lambda: len(list((lab / "results").rglob("*.json")))  # noqa: E731
        made.wait(lambda: results() > 10, 600)
        killed = made.kill("SLURM_JOB_NAME=fleet", "SLURMD_NODENAME=n1")
        print(f"slurm: {killed} processes of a task killed", flush=True)
        made.wait(lambda: results() > 25 and bool(made.processes("SLURMD_NODENAME=n2")), 600)
        made.nodes["n2"].kill()
        print(f"slurm: node n2 killed, with {made.kill('SLURMD_NODENAME=n2')} processes of tasks", flush=True)
        status = asked.wait(900)
        print(f"slurm: status {status} after {time.monotonic() - begun:.0f} s", flush=True)
        compare("slurm.sh", status, 0, fail)
    check_results("slurm", lab, fail)
