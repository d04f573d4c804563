"""Tasks of crates side by side: each in one of several copies of the sources, after those that it waits for.

Runs of the prover in one checkout wait for one another where they have a crate below in common; in copies they don't. What the
tasks of a crate leave in its folder `out` goes with it into a copy and back, and the libraries below it are lent to the copy.
"""
import dataclasses
import fcntl
import os
import pathlib
import re
import shutil
import signal
import subprocess
import sys
import time

from command_line import stop
from crates import TOP, minutes_of, read_minutes

# The copies, in a folder that git passes by. A check takes up to some gigabytes, so memory decides how many there are.
ROOM = TOP / "out" / "copies"
BYTES_OF_A_CHECK = 3 << 30
# How a run ends whose check was killed, as it is where memory runs out.
KILLED = (-signal.SIGKILL, 256 - signal.SIGKILL)
# What the prover reads of a crate, and its tests and programs.
UNREAD = shutil.ignore_patterns("out", "wrong-bodies", "__pycache__")
PAUSE = 0.2
# By how much the priority is lower of what nothing waits for as long as for another: it gets a third of a processor's time then.
MAKES_WAY = 5


@dataclasses.dataclass(frozen=True)
class Task:
    """A run of the prover for a crate: a word for what it is, its command, and all crates below, which have to be proved before
    it. At the top of the repository, or in the crate's folder. Whether it may have several jobs, and whether it goes on from what
    earlier ones left in the crate's folder `out`: one that doesn't leaves the library there for others that begin meanwhile."""

    crate: str
    what: str
    words: tuple
    below: tuple
    at_top: bool = False
    with_jobs: bool = False
    goes_on: bool = True

    def log(self):
        return TOP / "crates" / self.crate / "out" / f"{self.what}.log"


@dataclasses.dataclass
class Run:
    """A task that goes on: in which copy, since when, and its process."""

    task: Task
    copy: pathlib.Path
    began: float
    process: subprocess.Popen


def processors():
    """How many processors may be used: those of this process, or as many as the variable RT_JOBS says, as for `rt`."""
    said = os.environ.get("RT_JOBS", "")
    return int(said) if said.isdecimal() else len(os.sched_getaffinity(0))


def lanes():
    """How many tasks may go on side by side: one a processor, and as many as memory holds."""
    available = re.search(r"MemAvailable:\s+(\d+) kB", pathlib.Path("/proc/meminfo").read_text())
    memory = int(available[1]) << 10 if available else 0
    return max(1, min(processors(), memory // BYTES_OF_A_CHECK))


def copy_sources(crates, copy):
    """A copy of what is proved, as the top of a repository."""
    (copy / ".git").mkdir(parents=True)
    lines = (TOP / "crates.txt").read_text().splitlines(keepends=True)
    (copy / "crates.txt").write_text("".join(line for line in lines if line.split(":")[0].split(" ")[0] in crates))
    shutil.copy2(TOP / "HANDLES", copy / "HANDLES")
    for crate in crates:
        shutil.copytree(TOP / "crates" / crate, copy / "crates" / crate, ignore=UNREAD)


def out_of(top, crate):
    return top / "crates" / crate / "out"


def lend(crate, copy):
    """Gives a copy the library of a crate that is proved, as further names of its files."""
    library, lent = out_of(TOP, crate) / "rlib", out_of(copy, crate) / "rlib"
    if library.is_dir() and not lent.exists():
        shutil.copytree(library, lent, copy_function=os.link)


def link_or_copy(file, other):
    """Gives a file a further name, or copies it to another disk."""
    try:
        os.link(file, other)
    except OSError:
        shutil.copy2(file, other)


def take_over(crates, checkout):
    """Gives crates that have nothing proved what another checkout has of them, as further names of its files."""
    other = pathlib.Path(checkout).resolve()
    if not (other / "crates.txt").is_file():
        stop(f"{checkout} is no checkout of a repository")
    for crate in crates:
        if (out_of(other, crate) / "rlib").is_dir() and not (out_of(TOP, crate) / "incremental").is_dir():
            shutil.rmtree(out_of(TOP, crate), ignore_errors=True)
            shutil.copytree(out_of(other, crate), out_of(TOP, crate), copy_function=link_or_copy)


def begin(task, copy, jobs, leads):
    """Begins a task in a copy, with what the crate has in its folder `out` and the libraries below it. It comes before others
    where it leads, and makes way where it doesn't."""
    out = out_of(TOP, task.crate)
    out.mkdir(exist_ok=True)
    shutil.rmtree(out_of(copy, task.crate), ignore_errors=True)
    if task.goes_on:
        out.rename(out_of(copy, task.crate))
    else:
        out_of(copy, task.crate).mkdir()
    for crate in task.below:
        lend(crate, copy)
    words = [*task.words, "--jobs", str(jobs)] if jobs > 1 else task.words
    words = words if leads else ["nice", "-n", str(MAKES_WAY), *words]
    folder = copy if task.at_top else copy / "crates" / task.crate
    with open(out_of(copy, task.crate) / task.log().name, "w") as log:
        process = subprocess.Popen(words, cwd=folder, stdin=subprocess.DEVNULL, stdout=log, stderr=log, start_new_session=True)
    return Run(task, copy, time.monotonic(), process)


def end(run):
    """Takes back what a run has left. Whether it ended well."""
    left = out_of(run.copy, run.task.crate)
    if run.task.goes_on:
        # A check by hand may have made the folder anew meanwhile: what this run left is more.
        shutil.rmtree(out_of(TOP, run.task.crate), ignore_errors=True)
        left.rename(out_of(TOP, run.task.crate))
    else:
        shutil.move(left / run.task.log().name, run.task.log())
    return run.process.returncode == 0


def work_behind(tasks):
    """Of each task how many minutes the longest chain takes that begins with it: the longest is begun first."""
    known, behind = read_minutes(), dict.fromkeys(tasks, 0)
    proofs = [task for task in tasks if task.what == "proof"]
    for task in reversed(proofs):
        behind[task] = minutes_of(task.crate, known) + max((behind[other] for other in proofs if task.crate in other.below), default=0)
    return behind


def ready(left, running, proved):
    """The tasks that can begin: all below them is proved, and no other task of their crate goes on or comes first."""
    busy = {run.task.crate for run in running}
    found = []
    for task in left:
        if task.crate not in busy and set(task.below) <= proved:
            busy.add(task.crate)
            found.append(task)
    return found


def alone():
    """Keeps other runs out of this checkout, as long as what is answered lives."""
    ROOM.parent.mkdir(exist_ok=True)
    lock = open(ROOM.parent / "lock", "w")
    try:
        fcntl.flock(lock, fcntl.LOCK_EX | fcntl.LOCK_NB)
    except BlockingIOError:
        stop("another run proves in this checkout")
    return lock


class Runner:
    """Tasks that go on in copies of the sources, those that are left, and what is proved."""

    def __init__(self, crates, tasks, tell):
        self.most, self.tell, self.behind = lanes(), tell, work_behind(tasks)
        self.left, self.running, self.has_failed = list(tasks), [], False
        self.proved = set(crates) - {task.crate for task in tasks if task.what == "proof"}
        self.idle = [ROOM / str(number) for number in range(self.most)]
        for copy in self.idle:
            copy_sources(crates, copy)

    def begin_next(self):
        """Begins as many tasks as there are processors for. The one with which the longest chain begins gets as many jobs as
        there are processors, and comes before those that go on beside it, since nothing is done sooner than that chain."""
        free = max(0, self.most - len(self.running))
        longest = max((self.behind[run.task] for run in self.running), default=0)
        begun = sorted(ready(self.left, self.running, self.proved), key=lambda task: -self.behind[task])[:free]
        for number, task in enumerate(begun):
            leads = number == 0 and self.behind[task] > longest
            jobs = self.most if leads else max(1, free // len(begun))
            self.left.remove(task)
            self.running.append(begin(task, self.idle.pop(), jobs if task.with_jobs else 1, leads))

    def take_ended(self):
        """Takes back what those have left that have ended, and tells of them. One that was killed beside others, as it is where
        memory runs out, is run again, and from then on all run one after the other."""
        for run in [run for run in self.running if run.process.poll() is not None]:
            self.running.remove(run)
            self.idle.append(run.copy)
            is_well = end(run)
            if self.most > 1 and run.process.returncode in KILLED:
                self.most = 1
                self.left.insert(0, run.task)
                continue
            self.has_failed = self.has_failed or not is_well
            if is_well and run.task.what == "proof":
                self.proved.add(run.task.crate)
            self.tell(run.task, is_well, time.monotonic() - run.began)

    def run(self):
        while self.running or (self.left and not self.has_failed):
            if not self.has_failed:
                self.begin_next()
            time.sleep(PAUSE)
            self.take_ended()

    def stop(self):
        """Ends what still goes on."""
        for run in self.running:
            os.killpg(run.process.pid, signal.SIGTERM)
            run.process.wait()
            end(run)


def run_all(crates, tasks, tell):
    """Runs the tasks, whose crates stand in an order in which each comes after those below it. `tell` hears of each that has
    ended: the task, whether it ended well, and the seconds that it took. None begins after one that didn't. Whether all did."""
    lock = alone()
    # Who ends this ends what it has begun, too.
    for number in (signal.SIGINT, signal.SIGTERM):
        signal.signal(number, lambda number, _: sys.exit(128 + number))
    shutil.rmtree(ROOM, ignore_errors=True)
    runner = Runner(crates, tasks, tell)
    try:
        runner.run()
    finally:
        runner.stop()
        shutil.rmtree(ROOM, ignore_errors=True)
        lock.close()
    return not runner.has_failed
