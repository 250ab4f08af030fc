"""What runs of a program take: processor time, instructions and memory."""

import concurrent.futures
import dataclasses
import os
import pathlib
import re
import shutil
import subprocess
import time
from typing import TypeVar

# What a run is named by.
Name = TypeVar("Name")
COLLECTED, PEAK = re.compile(r"Collected : (\d+)"), re.compile(r"VmHWM:\s+(\d+) kB")
HORIZON = re.compile(r"^horizon,(\d+),(\d+)$", re.M)
ITEM = re.compile(r"^([\w-]+),([\w-]+),(\d+)$", re.M)
# Instructions that a program for x86-64-v3 has in number, and one for x86-64 nowhere.
THIRD_LEVEL = re.compile(r"\b(?:shlx|shrx|sarx|rorx|mulx)\b")
JOBS = len(os.sched_getaffinity(0))
# Every method has one thread, since others that wait for work take processor time, too; and Python
# makes its tables alike in each run.
ENVIRONMENT = {"OPENBLAS_NUM_THREADS": "1", "OMP_NUM_THREADS": "1", "PYTHONHASHSEED": "0"}
# How many runs show how much memory one takes.
RUNS = 5


@dataclasses.dataclass
class Run:
    """What a run printed, and its processor time in seconds, of user and system together."""

    out: str
    seconds: float


def run(words: list[str]) -> Run:
    """Runs a program, which has to end with 0 and to print little to standard error."""
    pipe, alike = subprocess.PIPE, os.environ | ENVIRONMENT
    with subprocess.Popen(words, stdin=subprocess.DEVNULL, stdout=pipe, stderr=pipe, text=True, env=alike) as one:
        assert one.stdout is not None and one.stderr is not None
        out, line = one.stdout.read(), one.stderr.read()
        _, end, used = os.wait4(one.pid, 0)
        one.returncode = os.waitstatus_to_exitcode(end)
    if one.returncode:
        raise OSError(f"{' '.join(words)} ended with {one.returncode}: {line[-200:]}")
    return Run(out, used.ru_utime + used.ru_stime)


def instructions(words: list[str]) -> int | None:
    """The instructions of a run, as callgrind counts them; none where valgrind is not there."""
    valgrind = shutil.which("valgrind")
    if not valgrind:
        return None
    call = [valgrind, "--tool=callgrind", "--callgrind-out-file=/dev/null", *words]
    done = subprocess.run(call, env={"PATH": os.defpath}, stdin=subprocess.DEVNULL, capture_output=True, text=True)
    found = COLLECTED.search(done.stderr)
    if done.returncode or not found:
        raise OSError(f"{' '.join(call)} ended with {done.returncode}: {done.stderr[-200:]}")
    return int(found[1])


def all_instructions(calls: dict[Name, list[str]]) -> dict[Name, int | None]:
    """The instructions of some runs, counted side by side: what else runs does not change them."""
    with concurrent.futures.ThreadPoolExecutor(JOBS) as pool:
        return dict(zip(calls, pool.map(instructions, calls.values())))


def peak_bytes(words: list[str]) -> int:
    """The most memory that a run has resident, as Linux reports it while the run lasts. A short run
    may be over before it is seen, so that there are several."""
    nowhere = subprocess.DEVNULL
    peak = 0
    for _ in range(RUNS):
        with subprocess.Popen(words, stdin=nowhere, stdout=nowhere) as one:
            while one.poll() is None:
                found = PEAK.search(pathlib.Path(f"/proc/{one.pid}/status").read_text())
                peak = max(peak, int(found[1]) << 10 if found else 0)
                time.sleep(0.0002)
    return peak


def level(program: str) -> str:
    """The processor that a program was built for, by its instructions."""
    code = subprocess.run(
        ["objdump", "-d", "--no-show-raw-insn", program], check=True, capture_output=True, text=True
    ).stdout
    return "x86-64-v3" if THIRD_LEVEL.search(code) else "x86-64"


def steps_of(report: str) -> int:
    """The sum of the horizons of a report."""
    return sum(int(horizon) * int(count) for horizon, count in HORIZON.findall(report))


def sums_of(report: str) -> dict[tuple[str, str], int]:
    """The numbers of a report, by item and name."""
    return {(item, name): int(value) for item, name, value in ITEM.findall(report)}
