"""Samples of networks of three families (generate/forms.py) are those of a plain program.

`--networks` says how many of each family are compared, from the number `--first` on.
"""

import pathlib
import tomllib

import pytest

from generate.forms import ENTRIES, network
from oracle import plain
from oracle.plain_network import Event, Network
from oracle.regions import box_outcome, corners_outcome
from tests.support import Expectations, answer

OUTCOMES = {"monotone": corners_outcome, "index": corners_outcome, "mixed": box_outcome}


@pytest.mark.slow
@pytest.mark.parametrize("family", ENTRIES)
def test_samples_of_a_family(
    program: str, expect: Expectations, tmp_path: pathlib.Path, family: str, numbers: range
) -> None:
    met, forms = 0, set()
    for number in numbers:
        text = network(family, number)
        (tmp_path / "net.toml").write_text(text)
        net = Network(tomllib.loads(text))
        seed, stream = number, number * number
        status, wanted = plain.outcome_text(net, OUTCOMES[family](net, seed, stream))
        found = answer([program, "sample", "net.toml", seed, stream], tmp_path)
        # What was learnt of this network's events and words is of no use for the next.
        Event.after.cache_clear()
        plain.block.cache_clear()
        met += status == 0
        forms.add(words_of(net.caps))
        expect(found == (status, wanted.encode(), b""), f"{family} network {number}: {wanted} {found}")
    expect(met, "no sample coalesces")
    expect(len(numbers) < 100 or forms == {*range(5)}, f"states fit {forms} words alone")


def words_of(caps: tuple[int, ...]) -> int:
    """In how many words of 64 bits the states fit; 0 where they don't fit four."""
    bits = max(2, max(caps).bit_length() + 1)
    words = -(-len(caps) // (64 // bits)) if bits <= 16 else 0
    return words if words <= 4 else 0
