"""How many instructions a step of a path takes, as callgrind counts them.

No clause says by which way a path is walked, since only the speed depends on it. So the ways are compared
here: where all rewards are linear, a network of many states is walked on packed states; a network of few
states by a table of them, whatever its rewards; all else event by event, which is the slowest.
"""

import pathlib
import sys

import pytest

from psi_tools.model.networks import Network
from tests.support import TOP, built

sys.path.append(str(TOP / "bench"))

import measure
import networks

STEPS = 20_000


def line(count: int, capacity: int, kind: str) -> Network:
    """Queues in a row with one reward, whose value is the number of customers in the first queue."""
    net = networks.line(count, capacity, 1, 4, 5, "stay", 20)
    if kind == "linear":
        return net.reward("first", kind, ["q1"], weights=[1])
    return net.reward("first", kind, ["q1"], table=[[*range(capacity + 1)]])


def instructions_a_step(program: str, folder: pathlib.Path, net: Network) -> float:
    """The instructions of a path of twice as many steps, less those of the path, by steps."""
    paths, file = built(program, "psi_paths"), folder / "net.toml"
    net.write(file)
    calls = {steps: [paths, str(file), "0", "0", "1", str(steps)] for steps in (STEPS, 2 * STEPS)}
    counts = measure.all_instructions(calls)
    short, long = counts[STEPS], counts[2 * STEPS]
    assert short is not None and long is not None
    return (long - short) / STEPS


@pytest.mark.slow
@pytest.mark.needs("valgrind")
@pytest.mark.parametrize("count, capacity", [(8, 20), (20, 10)], ids=["one word", "two words"])
def test_linear_rewards_are_walked_on_packed_states(
    program: str, tmp_path: pathlib.Path, count: int, capacity: int
) -> None:
    packed, plain = (
        instructions_a_step(program, tmp_path, line(count, capacity, kind)) for kind in ("linear", "table")
    )
    assert packed < 0.6 * plain


@pytest.mark.slow
@pytest.mark.needs("valgrind")
def test_few_states_are_walked_by_a_table(program: str, tmp_path: pathlib.Path) -> None:
    by_table = instructions_a_step(program, tmp_path, line(3, 4, "table"))
    plain = instructions_a_step(program, tmp_path, line(8, 20, "table"))
    assert by_table < 0.6 * plain
