#!/usr/bin/env python3
"""prove.py CPU

Proves the crates that the program psi is made of, builds it for the processor CPU and tries it
once. `./psi` calls this script. It uses the public commands of the toolchain alone: `rt version`,
`rt lib` and `rt run`.

Crates on which nothing waits are proved side by side, in lanes (lanes.py), in the order that
schedule.py chooses. Where few crates are left, each gets several processors. Standard error has at
least once a minute how many crates are proved and about how long the rest takes; standard output
has what `rt` says. The exit status is 0 where the program is built, and else 1.
"""

import contextlib
import fcntl
import os
import pathlib
import queue
import re
import shutil
import signal
import subprocess
import sys
import tempfile
import threading
import time
from collections.abc import Callable
from typing import IO

HERE = pathlib.Path(__file__).resolve().parent
TOP = HERE.parent.parent
sys.dont_write_bytecode = True
sys.path[0] = str(TOP)

from tools.build.crates import Crates  # noqa: E402
from tools.build.lanes import Lane, Marks, has_links  # noqa: E402
from tools.build.schedule import Costs, Pace, Schedule  # noqa: E402

PROGRAM = "psi"
# What the program prints where it is run without words.
ANSWER = "psi: usage word 1"
# The sum of the toolchain's logic with which PSI was tried.
LOGIC = "dac8208d650f15bf"
# The part of the free memory that is used.
SHARE = 0.85
# Seconds between two lines of progress, and until the first that says how long is left.
TICK, FIRST = 30, 60
# `rt` ends with one of these where it has judged; else something has ended it.
JUDGED = 0, 1, 2, 3


def tell(text: str) -> None:
    print(f"psi: {text}", file=sys.stderr, flush=True)


def number_in(file: str, pattern: str = r"(\d+)") -> int | None:
    """Returns the number that a pattern finds in a file of the system, or none."""
    with contextlib.suppress(OSError):
        found = re.search(pattern, pathlib.Path(file).read_text())
        return int(found[1]) if found else None
    return None


def processors() -> int:
    """Returns how many processors this process may use, by its affinity and its control group."""
    found = len(os.sched_getaffinity(0))
    quota, period = (number_in("/sys/fs/cgroup/cpu.max", form) for form in (r"^(\d+)", r" (\d+)"))
    return min(found, max(1, quota // period)) if quota and period else found


def memory() -> float:
    """Returns how many MB may be taken: most of what the group and the machine have free."""
    found: float = (number_in("/proc/meminfo", r"MemAvailable:\s+(\d+)") or 0) // 1024
    group = "/sys/fs/cgroup/memory"
    limit, held = number_in(f"{group}.max"), number_in(f"{group}.stat", r"anon (\d+)")
    found = min(found, (limit - held) >> 20) if limit and held else found
    return SHARE * found


def duration(seconds: float) -> str:
    """Returns a time in words: to ten seconds, and from two minutes on to a minute."""
    tens = max(1, round(seconds / 10))
    return f"{tens * 10} s" if tens < 12 else f"{round(seconds / 60)} min"


def crates_of(count: int) -> str:
    return f"{count} crate" if count == 1 else f"{count} crates"


class Build:
    """The proof of all crates of a program, under way."""

    def __init__(
        self, crates: Crates, schedule: Schedule, lanes: Callable[[int], Lane], is_current: Callable[[str], bool]
    ) -> None:
        """`lanes` makes a lane; `is_current` tells whether a crate needs no proof."""
        self.crates, self.schedule, self.make_lane = crates, schedule, lanes
        self.done = {name for name in crates.names[:-1] if is_current(name)}
        self.waiting = [name for name in crates.names if name not in self.done]
        self.whole = len(self.waiting)
        self.running: dict[str, tuple[int, float]] = {}
        self.failed: list[str] = []
        self.idle: list[Lane] = []
        self.lanes: list[Lane] = []
        self.ended: queue.SimpleQueue[tuple[str, Lane, int]] = queue.SimpleQueue()
        self.pace, self.begun = Pace(schedule.costs), time.monotonic()
        self.noted = self.begun

    def jobs(self) -> dict[str, int]:
        return {name: jobs for name, (jobs, _) in self.running.items()}

    def note(self) -> None:
        """Notes what the crates under way have taken since this was noted, as they would at full
        speed."""
        now = time.monotonic()
        took, self.noted = (now - self.noted) * self.schedule.rate(self.jobs()), now
        self.running = {name: (jobs, it + took) for name, (jobs, it) in self.running.items()}

    def start(self, name: str, jobs: int, work: "Work") -> None:
        """Begins the proof of a crate in a lane of its own; `work` does it."""
        if not self.idle:
            self.lanes.append(self.make_lane(len(self.lanes)))
            self.idle.append(self.lanes[-1])
        lane = self.idle.pop()
        self.waiting.remove(name)
        self.running[name] = jobs, 0

        def run() -> None:
            status = 1
            try:
                status = work(lane, name, jobs)
            finally:
                self.ended.put((name, lane, status))

        threading.Thread(target=run, daemon=True).start()

    def end(self, name: str, lane: Lane, status: int) -> None:
        """Notes that a proof is over. One that was ended from outside, most likely for want of
        memory, is tried again by itself."""
        jobs, took = self.running.pop(name)
        self.idle.append(lane)
        if status == 0:
            self.done.add(name)
            self.pace.add(name, jobs, took)
        elif status not in JUDGED and (self.running or jobs > 1):
            self.waiting.append(name)
            self.schedule.processors = 1
        else:
            self.failed.append(name)

    def run(self, work: "Work") -> bool:
        """Proves all, and returns whether all is proved."""
        while self.waiting or self.running:
            while not self.failed and (found := self.schedule.next(self.waiting, self.done, self.jobs())):
                self.start(*found, work)
            if not self.running:
                break
            self.say()
            ended = None
            with contextlib.suppress(queue.Empty):
                ended = self.ended.get(timeout=TICK)
            self.note()
            if ended:
                self.end(*ended)
        return not self.waiting and not self.failed

    def say(self) -> None:
        """Tells how far it is."""
        now = time.monotonic() - self.begun
        count = self.whole - len(self.waiting) - len(self.running) - len(self.failed)
        seconds = self.schedule.left(self.waiting, self.done, self.running, self.pace)
        left = f", about {duration(seconds)} left" if now >= FIRST else ""
        tell(f"{count} of {crates_of(self.whole)} proved in {duration(now)}{left}; proving {', '.join(self.running)}")


class Work:
    """What is done with a crate in a lane."""

    def __init__(self, crates: Crates, marks: Marks, cpu: str) -> None:
        self.crates, self.marks, self.cpu = crates, marks, cpu
        self.printing, self.processor_time = threading.Lock(), 0.0

    def __call__(self, lane: Lane, name: str, jobs: int) -> int:
        begun = time.monotonic()
        with tempfile.TemporaryFile("w+", errors="replace") as log:
            status = self.prove(lane, name, jobs, log)
            log.seek(0)
            text = log.read()
            if name == PROGRAM and status == 2 and ANSWER in text.splitlines():
                # The program itself ends so.
                status = 0
            took, used = time.monotonic() - begun, lane.processor_time
            head = f"== {name}: {took:.0f} s with {jobs} jobs, {used:.0f} s of processor time"
            with self.printing:
                self.processor_time += used
                print(f"{head}\n{text}", end="", flush=True)
        return status

    def prove(self, lane: Lane, name: str, jobs: int, log: IO[str]) -> int:
        """Has `rt` do it, and returns its exit status."""
        if name == PROGRAM:
            words = ["rt", "run", "--jobs", str(jobs), f"--cpu={self.cpu}"]
            return lane.call(words, self.crates.folder(name), log)
        status = lane.prove(name, jobs, log)
        if status == 0:
            self.marks.set(name)
        return status


def build(cpu: str, room: pathlib.Path) -> bool:
    """Builds the program with lanes in a folder, and returns whether it is built."""
    name = subprocess.run(["rt", "version"], capture_output=True, text=True).stdout.strip()
    if LOGIC not in name:
        tell(f"the toolchain is {name or 'unknown'}; PSI was tried with logic {LOGIC} alone")
    crates = Crates(TOP, PROGRAM)
    costs = Costs((HERE / "seconds.txt").read_text(), crates.lines)
    # Copies in the place of links would fill the disk, so there is only one.
    most = None if has_links(room.parent) else 1
    schedule = Schedule(crates, costs, processors(), memory(), most)
    marks = Marks(crates, name)
    proof = Build(crates, schedule, lambda number: Lane(crates, room / str(number)), marks.has)
    work = Work(crates, marks, cpu)
    tell(f"proving {crates_of(proof.whole)} on {schedule.processors} processors")
    try:
        is_built, took = proof.run(work), time.monotonic() - proof.begun
        print(f"in all: {took:.0f} s, and {work.processor_time:.0f} s of processor time")
        return is_built
    finally:
        for lane in proof.lanes:
            lane.stop()


def main() -> int:
    for it in (signal.SIGTERM, signal.SIGHUP):
        signal.signal(it, lambda number, _: sys.exit(128 + number))
    out = TOP / "crates" / PROGRAM / "out"
    room = out / "lanes"
    with open(out / "build.lock", "w") as lock:
        try:
            fcntl.flock(lock, fcntl.LOCK_EX | fcntl.LOCK_NB)
        except BlockingIOError:
            tell("waiting for another build in this folder")
            fcntl.flock(lock, fcntl.LOCK_EX)
        shutil.rmtree(room, ignore_errors=True)
        try:
            return 0 if build(sys.argv[1], room) else 1
        except KeyboardInterrupt:
            return 130
        finally:
            shutil.rmtree(room, ignore_errors=True)


if __name__ == "__main__":
    sys.exit(main())
