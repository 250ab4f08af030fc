"""Where the expected answers of the cases come from, as crates/psi_test_cases/data/PROVENANCE says: what
a program of this repository made is made again, and what came from outside is compared with plain
programs, where these answer it in little time.
"""

import itertools
import math
import pathlib
import subprocess
import sys
import tomllib
from collections.abc import Iterator

import pytest

from generate.case_files import DATA, Case, cases
from oracle import plain
from oracle.plain_network import Network
from tests.support import CHECKER, TOP, Expectations, answer, write

SWEEP = TOP / "crates/psi_test_sweep"
ROWS = [
    line.split(maxsplit=2)
    for line in (DATA / "PROVENANCE").read_text().splitlines()
    if line and not line.startswith("#")
]
SOURCE = {name: (kind, note) for name, kind, note in ROWS}
MADE = {name: note for name, (kind, note) in SOURCE.items() if kind == "made"}
# Files that take more than some seconds to make.
SLOW = {"small.cases": [pytest.mark.slow], "small-exact.cases": [pytest.mark.slow]}
SLOW["sweeps.cases"] = [pytest.mark.slow, pytest.mark.release]
# How many states a network may have, and how many of them are followed in all.
MOST_STATES, MOST_STEPS = 400, 60_000
# The statuses of answers that the plain program has.
ANSWERED = 0, 1, 9, 10, 11, 12


def test_each_file_has_one_source() -> None:
    assert sorted(SOURCE) == sorted(file.name for file in DATA.iterdir() if file.name != "PROVENANCE")
    assert len(ROWS) == len(SOURCE) and {kind for kind, _ in SOURCE.values()} == {"made", "hand", "outside"}


@pytest.mark.parametrize("name", [pytest.param(name, marks=SLOW.get(name, [])) for name in MADE])
def test_what_is_made_is_made_again(name: str) -> None:
    words = [sys.executable, *MADE[name].split()[1:]]
    assert subprocess.check_output(words, cwd=TOP) == (DATA / name).read_bytes()


@pytest.mark.slow
def test_tables_are_made_again(tmp_path: pathlib.Path) -> None:
    subprocess.run([sys.executable, "-m", "generate.images", str(tmp_path)], cwd=TOP, check=True)
    made = {file.name for file in (tmp_path / "data").iterdir()}
    assert made | {"PROVENANCE"} == {file.name for file in (SWEEP / "data").iterdir()}
    for name in (*(f"data/{name}" for name in made), "args", "stdout", "status"):
        assert (tmp_path / name).read_bytes() == (SWEEP / name).read_bytes(), name


def steps_of(case: Case, net: Network) -> float:
    """About how many states the plain program follows for the answer of a case."""
    states, limit = math.prod(cap + 1 for cap in net.caps), 1 << net.limit
    words = case.out.decode().split()
    kind = case.words[0]
    if kind == "check":
        return states
    if kind == "report":
        rows = (line.split(",") for line in case.out.decode().splitlines())
        last = max((int(name) for item, name, _ in rows if item == "horizon"), default=limit)
        return states * 2 * (limit if "uncoupled,-,0" not in case.out.decode() else last) * int(case.words[4])
    if kind == "exact":
        return states * states * (1 << int(case.words[4]))
    horizon = int(words[1]) if case.status == 0 else limit
    return states * horizon * (horizon if kind == "couple" else 2)


def small_cases(name: str) -> Iterator[tuple[Case, Network]]:
    """The cases of a file that the plain program answers in little time, with their networks."""
    for case in cases(name):
        if case.status in ANSWERED and case.words[1] in case.files:
            net = Network(tomllib.loads(case.files[case.words[1]].decode()))
            if math.prod(cap + 1 for cap in net.caps) <= MOST_STATES and steps_of(case, net) <= MOST_STEPS:
                yield case, net


# How many cases of each command are compared at least.
OUTSIDE = {"check": 56, "sample": 150, "report": 78, "couple": 56, "reward": 54, "exact": 34, "closed": 113}


@pytest.mark.slow
@pytest.mark.parametrize("command", OUTSIDE)
def test_answers_from_outside(expect: Expectations, command: str) -> None:
    assert SOURCE[f"{command}.cases"][0] == "outside"
    for case, net in small_cases(f"{command}.cases"):
        wanted = plain.answer(net, command, *case.words[2:])
        found = (case.status, (case.out + case.err).decode())
        expect(found == wanted, f"{case.name}: {found}, and not {wanted}")
    expect(expect.count >= OUTSIDE[command], f"only {expect.count} cases are compared")


@pytest.mark.slow
def test_trials_from_outside(expect: Expectations) -> None:
    """The lines of a trial before its report; there are too many states to list."""
    for case in cases("trial.cases"):
        heading = plain.trial_heading(int(case.words[1])) if case.status == 0 else ""
        expect(case.out.decode().startswith(heading), f"{case.name}: {heading}")


@pytest.mark.slow
@pytest.mark.parametrize("share", range(4))
def test_logs_from_outside(expect: Expectations, tmp_path: pathlib.Path, share: int) -> None:
    """What the checker, which stands apart, says of each log; of those that are written it says that they
    are right."""
    for case in itertools.islice(itertools.chain(cases("replay.cases"), cases("log.cases")), share, None, 4):
        words, is_log = case.words[1:], case.words[0] == "sample"
        if is_log and case.status != 0 or case.status in (3, 6, 8):
            continue
        write(tmp_path, {**case.files, "written.log": case.out})
        status, out, err = answer([*CHECKER, *([words[0], "written.log"] if is_log else words)], tmp_path)
        if is_log:
            is_right = status == 0 and out.split()[-1] == case.out.split()[-1]
        else:
            is_right = (status, out, err) == (case.status, case.out, case.err)
        expect(is_right, f"{case.name}: {out!r} {err!r}")
