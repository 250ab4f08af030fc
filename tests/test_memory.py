"""Refuses the built program each growth of its memory in turn; psi_merge too, where it is built beside
it or in its crate. It wants a C compiler, `cc` or what CC names, and a dynamic linker that knows
LD_PRELOAD: tests/refuse/refuse.c says what a growth is and how one is refused.

Each call is first made with ample memory; it has to end as its case says, if it has one, and with a
status of an answer. Then, for N = 1, 2, 3, .. until no growth is refused any more, it is made with
the N-th growth alone refused, and with the N-th and all later ones refused. Each time it has to end
with status 8, nothing on standard output and just the line `out of memory` on standard error, or
exactly as with ample memory, within a time limit. The first growths are those for the words
themselves, as many as words of the same lengths take that are no command, since these take no
other: where one of them is refused, the status has to be 8, and nothing is written.

No call that is to take no memory takes some: the program psi_test_memory is run where the allocation
of one number is refused, once with each such call and once with none, and prints the same.
"""

import concurrent.futures
import os
import pathlib
import re
from collections.abc import Iterator

import pytest

from generate import case_files
from generate.case_files import Case
from psi_tools.model.networks import Network
from tests import merges
from tests.refusing import Call, Refusing
from tests.support import TOP, Expectations, answer_as_text, built, write

# For each command the words that are tried on each network, and cases by their files.
COMMANDS = {
    "check": ("check NET", "rows.cases: reset-check two-servers-check unknown-kind"),
    "sample": ("sample NET 0 0", "rows.cases: first-sample split-1 not-coupled-within-the-limit"),
    "log": ("sample NET 0 0 log", "rows-log.cases: log-written-in-version-2 log-of-moves log-too-long"),
    "replay": ("replay NET LOG", "rows-log.cases: replay replay-2 replay-3 not-single version-9"),
    "report": ("report NET 0 0 2", "rows-report.cases: report-of-one-sample"),
    "trial": (None, "rows-report.cases: trial-0-whole-text trial-1-whole-text"),
    "couple": ("couple NET 0 0", "rows-couple.cases: couple-first-network couple-boxes-and-sets"),
    "reward": ("reward NET 0 0 cost", "rows-couple.cases: reward-above reward-never"),
    "exact": ("exact NET 0 0 2", "rows-exact.cases: exact-first-network too-many-states"),
    "closed": ("closed NET 0 0 1", "rows-closed.cases: ring-of-three no-state-with-this-total"),
}

# The merges that are tried, by their names in merges.
MERGES = (
    "the base",
    "one sample",
    "a sum that is too low",
    "two reports",
    "the second without a sample that is met",
    "another name",
    "a wrong second file",
    "too many samples",
    "32 queues",
)

# The networks, by cases that have them.
NETWORKS = (
    "rows.cases: first-sample split-4 rising-index-is-monotone reset-sample",
    "rows-log.cases: log-written-in-version-2",
    "rows-report.cases: report-with-the-reward-cost",
)


def ring() -> bytes:
    """The file of a closed network: three queues in a ring, each with one place."""
    net = Network()
    for start, end in zip("abc", "bca"):
        net.queue(start, 1).event(start + end, "service", 1, start, [end], full="stay")
    return net.data


def cases(line: str) -> list[Case]:
    """The cases that a line of the tables names."""
    file, names = line.split(": ")
    named = {case.name: case for case in case_files.cases(file)}
    return [named[name] for name in names.split(" ")]


def calls(refusing: Refusing, folder: pathlib.Path, command: str) -> Iterator[Call]:
    pattern, line = COMMANDS[command]
    for case in cases(line):
        yield Call(refusing, case.words, case.files, (case.status, case.out, case.err))
    if not pattern:
        return
    files = [case.files["net.toml"] for line in NETWORKS for case in cases(line)] + [ring()]
    for net in files:
        words = pattern.replace("NET", "net.toml").replace("LOG", "log.txt").split(" ")
        log = {}
        if "LOG" in pattern:
            write(folder, {"net.toml": net})
            (_, text, _), _ = refusing.run(["sample", "net.toml", "0", "0", "log"], str(folder))
            log = {"log.txt": text}
        yield Call(refusing, words, {"net.toml": net, **log})


def calls_of_merges(refusing: Refusing) -> Iterator[Call]:
    """The calls of psi_merge; what is wanted of several reports, merge_reports.py says."""
    for name in MERGES:
        files = merges.files_of(merges.CASES[name][0])
        yield Call(refusing, [*files], files, merges.wanted_of(files))


def try_calls(expect: Expectations, calls: list[Call]) -> None:
    """Makes calls side by side, as often as each has growths."""
    with concurrent.futures.ThreadPoolExecutor(os.cpu_count()) as pool:
        for call in pool.map(Call.perform, calls):
            for failure in call.failures:
                expect(False, failure)
            expect(call.runs, f"{call.shown()}: no growth is refused")


@pytest.mark.slow
@pytest.mark.parametrize("command", COMMANDS)
def test_memory_refused(program: str, library: str, expect: Expectations, tmp_path: pathlib.Path, command: str) -> None:
    try_calls(expect, [*calls(Refusing("psi", program, library), tmp_path, command)])


def test_memory_refused_to_merges(program: str, library: str, expect: Expectations) -> None:
    try_calls(expect, [*calls_of_merges(Refusing("psi_merge", built(program, "psi_merge"), library))])


@pytest.mark.slow
@pytest.mark.needs("rt")
@pytest.mark.xdist_group("rt")
def test_no_call_takes_memory() -> None:
    data = [word for name in ("net", "pair", "ring", "fork") for word in ("--data", f"{name}.toml=data/{name}.toml")]
    words = ["rt", "try", *data, "--fail-alloc", "1000", "--cases", "words"]
    _, out, err = answer_as_text(words, TOP / "crates/psi_test_memory", 1_800)
    given = re.findall(r"^\d+ are given$", out + err, re.M)
    assert len(given) == 2 and len({*given}) == 1, out + err
