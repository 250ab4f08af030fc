"""How often the intervals of the tools hold what they are of: by values that numpy draws, and by the built
program (study_intervals.py, study_guaranteed.py); over a few repetitions, which report a fault that is great,
and before a release over 400."""

import sys

import pytest

from tests.support import printed_by

HOURS = 4 * 3_600
pytestmark = pytest.mark.slow


def printed_by_study(program: str, study: str) -> str:
    """What a study prints, of which there are the name and its words; PSI is the program."""
    name, *words = (program if word == "PSI" else word for word in study.split())
    return printed_by(sys.executable, "-m", f"tests.study_{name}", *words, seconds=HOURS)


@pytest.mark.parametrize(
    "study, lines",
    (("intervals --repetitions 40 --count 2000 --least 80", 21), ("guaranteed PSI --repetitions 10 --count 60", 48)),
)
def test_a_few_repetitions(program: str, study: str, lines: int) -> None:
    assert printed_by_study(program, study).count(" of 100  width ") == lines


@pytest.mark.release
@pytest.mark.parametrize("study", ("intervals", "intervals PSI", "guaranteed PSI"))
def test_study(program: str, study: str) -> None:
    printed_by_study(program, study)
