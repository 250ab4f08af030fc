"""How `./psi` builds, in seconds and without proving anything: the toolchain's command `rt` is a script
in a temporary folder on the PATH that notes its calls and answers `version`, `lib` and `run` alone, so
the build has none of the private names of the toolchain's modules. And how the package of python/ is built.
"""

import os
import pathlib
import random
import re
import shutil
import sys
from collections.abc import Callable, Iterable

import pytest

from tests.support import TOP, Expectations, answer_as_text, checkout, printed_by
from tools.build.crates import Crates, crates_below, rows_of
from tools.build.schedule import Costs, Pace, Schedule

# What stands for `rt`. Its calls come to a file, a line each.
STAND_IN = """#!/bin/sh
here=${PWD##*/}
case $1 in
version) echo "$RT_KIT" && exit ;;
lib | run) echo "begin $here $*" >>"$RT_CALLS" ;;
*) echo "no stand-in for rt $1" >&2 && exit 2 ;;
esac
if [ "$here" = "$RT_KILLED" ] && [ ! -e "$RT_CALLS.killed" ]; then
    : >"$RT_CALLS.killed"
    kill -9 $$
fi
[ "$here" != "$RT_FAILS" ] || exit 1
made=out/rlib/$here.rlib/format
[ "$1" = lib ] || made=out/psi
rm -rf out/rlib
mkdir -p "${made%/*}"
echo "$here" >"$made"
chmod 755 "$made"
echo "end $here" >>"$RT_CALLS"
[ "$1" = lib ] || { echo "psi: usage word 1" && exit 2; }
"""
# How much the proof of one crate may be off the listed time on a machine, beside its speed.
LUCK = 0.88, 1.14
# Machines: how many processors they have, and how much longer they take.
MACHINES = (2, 0.6), (4, 0.6), (2, 1), (4, 1), (4, 1), (2, 2.5), (4, 2.5), (4, 2.5)
SHOWN, SECONDS = 200, 900
KIT = "a-kit logic dac8208d650f15bf"


class Trial:
    """A checkout, in which `./psi --build` is called with a stand-in for `rt`."""

    def __init__(self, room: pathlib.Path) -> None:
        self.room, self.calls, self.top = room, room / "calls", checkout(room)
        (room / "bin").mkdir()
        (room / "bin/rt").write_text(STAND_IN)
        (room / "bin/rt").chmod(0o755)
        self.crates = Crates(self.top, "psi")

    def build(self, kit: str = KIT, **more: str) -> tuple[int, str, list[str], list[list[str]]]:
        """Returns the status, the lines of standard error, and the noted calls of a build."""
        self.calls.write_text("")
        path = f"{self.room / 'bin'}:{os.environ['PATH']}"
        own = {"RT_CALLS": str(self.calls), "RT_KIT": kit, "RT_KILLED": "", "RT_FAILS": ""}
        environment = {**os.environ, "PATH": path, **own, **more}
        status, out, err = answer_as_text([self.top / "psi", "--build"], self.room, SECONDS, env=environment)
        lines = [line[:SHOWN] for line in err.splitlines()]
        calls = [line.split() for line in self.calls.read_text().splitlines()]
        return status, out, lines, calls


def begun(calls: list[list[str]]) -> list[str]:
    """The crates that the calls begin."""
    return [words[1] for words in calls if words[0] == "begin"]


def crates_above(top: pathlib.Path, names: Iterable[str]) -> set[str]:
    """The crates of a checkout that stand on one of some crates, and these."""
    uses, found = crates_below(top), {*names}
    while more := {name for name, used in uses.items() if found & {*used}} - found:
        found |= more
    return found


def test_rows() -> None:
    """What crates.txt says, by a text that was read by hand."""
    text = "# Rows.\nlow:\nmid feature: low libc\n\ntop : mid low # above\n"
    rows: dict[str, tuple[str, list[str]]] = {"low": ("low:", []), "mid": ("mid feature: low libc", ["low", "libc"])}
    assert rows_of(text) == {**rows, "top": ("top : mid low", ["mid", "low"])}
    assert [*rows_of(text)] == ["low", "mid", "top"]


def try_first(expect: Expectations, trial: Trial) -> None:
    """A build from nothing proves all that crates.txt has below the program, each crate after those below it."""
    status, out, lines, calls = trial.build()
    expect((status, out) == (0, ""), f"a build ends with {status} {out} {lines}")
    wanted = [name for name in crates_below(trial.top) if "psi" in crates_above(trial.top, [name])]
    expect(sorted(begun(calls)) == sorted(wanted), f"it proves {begun(calls)}")
    ended: set[str] = set()
    for what, name, *_ in calls:
        if what == "begin":
            early = {*trial.crates.below(name)} - ended
            expect(not early, f"{name} is begun before {early} are proved")
        else:
            ended.add(name)
    counts = [int(found[1]) for line in lines if (found := re.match(r"psi: (\d+) of \d+ ", line))]
    expect(counts == sorted(counts) and len(counts) >= len(wanted) // 2, f"progress is {counts}")
    expect(f"proving {len(wanted)} crates" in " ".join(lines), f"it says {lines[:3]}")
    expect(not any("logic" in line for line in lines), "it says that the toolchain is another")
    expect(not (trial.top / "crates/psi/out/lanes").exists(), "it leaves its lanes")


def try_later(expect: Expectations, trial: Trial) -> None:
    """Later builds prove nothing where nothing has changed, and else the changed crate and those above it."""
    status, _, lines, calls = trial.build()
    expect((status, lines, calls) == (0, [], []), f"a second build does {lines} {calls}")
    source = trial.top / "crates/psi_log_words/src/lib.rt"
    source.touch()
    expect(trial.build()[3] == [], "a source that is newer and the same is proved")
    source.write_text(source.read_text() + "// A change.\n")
    wanted = crates_above(trial.top, ["psi_log_words"]) & {*trial.crates.names}
    status, _, lines, calls = trial.build()
    expect({*begun(calls)} == wanted, f"after a change it proves {begun(calls)}, not {wanted}")


def try_failures(expect: Expectations, trial: Trial) -> None:
    """Proofs that fail or are killed, and a toolchain with another logic."""
    source = trial.top / "crates/psi_state/src/lib.rt"
    source.write_text(source.read_text() + "// A change.\n")
    status, _, lines, calls = trial.build(RT_FAILS="psi_event")
    late = crates_above(trial.top, ["psi_event"]) - {"psi_event"}
    expect(status == 126 and "the build failed" in lines[-1], f"a failure ends with {status} {lines}")
    expect(not late & {*begun(calls)}, f"above a crate that fails it proves {begun(calls)}")
    status, _, lines, calls = trial.build(RT_KILLED="psi_event")
    again = begun(calls).count("psi_event")
    expect((status, again) == (0, 2), f"a proof that is killed: {status}, begun {again} times")
    source.write_text(source.read_text() + "// Another change.\n")
    status, _, lines, calls = trial.build("a-kit logic 0123456789abcdef")
    expect({*begun(calls)} == {*trial.crates.names}, f"with another toolchain: {begun(calls)}")
    noted = [line for line in lines if "PSI was tried with" in line]
    expect((status, len(noted)) == (0, 1), f"with another logic it says {lines[:3]}")


def played(schedule: Schedule, true_seconds: Callable[[str, int], float]) -> tuple[float, list[tuple[float, float]]]:
    """Plays a build through, and returns its length and, for each moment at which progress is reported,
    the seconds until then and the time left that would be told."""
    waiting = [*schedule.crates.names]
    done: set[str] = set()
    jobs: dict[str, int] = {}
    so_far: dict[str, float] = {}
    reported: list[tuple[float, float]] = []
    pace, clock, tick = Pace(schedule.costs), 0.0, 60
    while waiting or jobs:
        while found := schedule.next(waiting, done, jobs):
            waiting.remove(found[0])
            jobs[found[0]], so_far[found[0]] = found[1], 0
        rate = schedule.rate(jobs)
        rests = {it: (true_seconds(it, jobs[it]) - so_far[it]) / rate for it in jobs}
        first = min(rests, key=rests.__getitem__)
        took = min(rests[first], tick)
        clock += took
        so_far = {it: so_far[it] + took * rate for it in jobs}
        if took == rests[first]:
            pace.add(first, jobs.pop(first), so_far[first])
            done.add(first)
        state = {it: (jobs[it], so_far[it]) for it in jobs}
        reported.append((clock, schedule.left(waiting, done, state, pace)))
    return clock, reported


@pytest.mark.slow
def test_builds(expect: Expectations, tmp_path: pathlib.Path) -> None:
    """Builds in one checkout, one after the other."""
    trial = Trial(tmp_path)
    for part in (try_first, try_later, try_failures):
        part(expect, trial)


@pytest.mark.parametrize("seed, machine", enumerate(MACHINES))
def test_time_left(expect: Expectations, seed: int, machine: tuple[int, float]) -> None:
    """The time left, where crates take other times than those that are listed: from a quarter of a build on it is
    within a third of the truth, or a minute of a machine of the listed speed."""
    processors, speed = machine
    crates = Crates(TOP, "psi")
    costs = Costs((TOP / "tools/build/seconds.txt").read_text(), lambda name: 500)
    absent = [name for name in crates.names if name not in costs.listed]
    expect(len(absent) * 4 < len(crates.names), f"seconds.txt lacks {absent}")
    luck = random.Random(seed)
    factor = {name: speed * luck.uniform(*LUCK) for name in crates.names}
    schedule = Schedule(crates, costs, processors, 16_000)
    whole, reported = played(schedule, lambda name, jobs: factor[name] * costs.seconds(name, jobs))
    off = [
        (now, left, whole - now)
        for now, left in reported
        if now >= whole / 4 and abs(left - (whole - now)) > max((whole - now) / 3, 60 * speed)
    ]
    expect(not off, f"{processors} processors, speed {speed}: off at {off[:3]}")
    expect(whole > 60, f"{whole} s")


@pytest.mark.slow
def test_the_package_stands_alone(tmp_path: pathlib.Path, program: str) -> None:
    """A copy of its folder is built, installed and tested, with psi on the PATH."""
    pytest.importorskip("pip", reason="it wants pip")
    copy, site = tmp_path / "python", tmp_path / "site"
    ignored = shutil.ignore_patterns("__pycache__", ".*_cache", ".hypothesis", "build", "*.egg-info")
    shutil.copytree(TOP / "python", copy, ignore=ignored)
    install = [sys.executable, "-m", "pip", "install", "-q", "--no-index", "--no-build-isolation", "--no-deps"]
    printed_by(*install, "--target", site, copy, folder=tmp_path, seconds=300)
    for name in ("psi", "psi_tools"):
        shutil.rmtree(copy / name)
    path = f"{pathlib.Path(program).parent}:{os.environ['PATH']}"
    environment = {**os.environ, "PATH": path, "PYTHONPATH": str(site)}
    environment.pop("PSI", None)
    call = [sys.executable, "-m", "pytest", "-q", "-p", "no:cacheprovider"]
    assert " passed" in printed_by(*call, folder=copy, seconds=300, env=environment)
