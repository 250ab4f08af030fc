"""Networks: files go to psi as they are, and no number is changed without a word."""

from decimal import Decimal
from fractions import Fraction
from pathlib import Path

import numpy
import pytest
from conftest import Psi, desk

from psi_tools.model.networks import Network, data_of
from psi_tools.errors import PsiError

FILE = "# What psi refuses is refused here, too.\n" + desk().toml()


@pytest.mark.parametrize("rate", ["4.9", "4.0", "true", '"4"'])
def test_a_file_that_psi_refuses_is_refused_by_the_module(psi: Psi, tmp_path: Path, rate: str) -> None:
    path = tmp_path / "float.toml"
    path.write_text(FILE.replace("rate = 4", f"rate = {rate}"))
    for call in (psi.check, psi.report, psi.means, psi.samples, lambda net: psi.law(net, "desk")):
        with pytest.raises(psi.Refused) as refused:
            call(path)
        assert str(refused.value) == "network refused 5 WrongType event 1 rate"


def test_a_file_is_handed_on_byte_by_byte(psi: Psi, tmp_path: Path) -> None:
    path = tmp_path / "net.toml"
    path.write_text(FILE)
    net = Network.read(path)
    assert data_of(path) == net.data == net.copy().data == FILE.encode()
    net.table["event"][0]["rate"] = 6
    assert Network.parse(net.data).table["event"][0]["rate"] == 6
    assert psi.check(net) == psi.check(desk(6))


@pytest.mark.parametrize(
    "rate", [0.29 * 100, Fraction(1, 3), Decimal("0.5"), True, float("nan"), float("inf"), numpy.float64(2.5), None]
)
def test_a_number_that_is_not_whole_names_its_key(rate: object) -> None:
    with pytest.raises(PsiError, match="^rate of event 'come' is .*, which isn't a whole number"):
        desk(rate).toml()


def test_other_keys_are_named_as_well() -> None:
    net = desk().reward("cost", "linear", ["desk"], weights=[0.5])
    with pytest.raises(PsiError, match="a value of weights of reward 'cost' is 0.5, which isn't"):
        net.toml()
    part = [{"queue": "desk", "least": 1.5}]
    net = desk().event("give-up", "guarded", 1, part=part)
    with pytest.raises(PsiError, match="least in a value of part of event 'give-up' is 1.5"):
        net.toml()


def test_whole_numbers_of_any_type_are_written() -> None:
    for rate in (4, 4.0, numpy.int64(4), Fraction(4), Decimal(4)):
        assert "\nrate = 4\n" in desk(rate).toml()


def test_rates_are_made_whole() -> None:
    assert [event["rate"] for event in desk(0.29 * 100).copy().table["event"]] != [29, 5]
    for rate, wanted in ((0.8, [4, 25]), (Fraction(1, 3), [1, 15]), (Decimal("2.25"), [9, 20])):
        net = desk(rate)
        assert [event["rate"] for event in net.scaled().table["event"]] == wanted
        assert net.table["event"][0]["rate"] == rate
    for rate in (0.29 * 100, 0, -1, True, "4"):
        with pytest.raises(PsiError):
            desk(rate).scaled()


@pytest.mark.parametrize(
    "name, value",
    [*(("count", value) for value in (0, 1e3, True, "10", None)), *(("seed", value) for value in (-1, 2**64))]
    + [("first", -1), ("first", 2**64 - 1)],
)
def test_arguments_of_streams(psi: Psi, name: str, value: object) -> None:
    calls = psi.report, psi.means, psi.samples, lambda net, **more: psi.law(net, "desk", **more)
    for call in calls:
        with pytest.raises(ValueError, match=f"^{name} is .*; a whole number from ") as fault:
            call(desk(), **{"count": 2, name: value})
        assert isinstance(fault.value, psi.PsiError)


@pytest.mark.parametrize("level", [95, 0, 1, True, "0.95", None, float("nan")])
def test_a_level_is_a_share(psi: Psi, level: object) -> None:
    with pytest.raises(psi.ArgumentError, match="^level is .*; a share from 0.5 to 0.9999"):
        psi.means(desk(), count=40, level=level)


def test_other_arguments(psi: Psi) -> None:
    for call in (psi.couple, psi.log, lambda net, seed, stream: psi.exact(net, seed, stream, 4)):
        with pytest.raises(psi.ArgumentError, match="^seed is -1; "):
            call(desk(), -1, 0)
    with pytest.raises(psi.ArgumentError, match="^total is 1.5; "):
        psi.closed(desk(), 1.5)
    with pytest.raises(psi.ArgumentError, match="^jobs is 0; "):
        psi.Program(jobs=0)
    assert len(psi.samples(desk(), numpy.int64(1), count=numpy.int32(3))) == 3
