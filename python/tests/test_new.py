"""psi-new: each kind is a file that psi takes, and means what it says."""

import shutil
from fractions import Fraction
from pathlib import Path

import pytest
from conftest import TOP, Psi, Tool, ended, match_in
from solving import birth_and_death, erlang_b, means_of

from psi_tools.model.catalog import made_whole
from psi_tools.model.networks import Network
from psi_tools.cli.new import KINDS
from tests.gallery import SHOWN

KIND_WORDS = {
    "mm1k": "--arrival 0.8 --service 1 --places 10",
    "mmck": "--arrival 5 --service 2 --servers 3 --places 10",
    "erlang-loss": "--arrival 7.5 --service 1 --servers 12",
    "abandonment": "--arrival 5 --service 2 --servers 2 --places 12 --patience 0.5",
    "batch": "--arrival 1 --size 3 --service 2 --servers 2 --places 9",
    "line": "--arrival 0.8 --service 1,1.2,1 --places 4",
    "overflow": "--arrival 6 --service 1 --servers 5,3",
    "shortest-queue": "--arrival 1.5 --service 1,1 --places 4",
    "closed": "--service 3,2,1 --customers 4",
    "breakdowns": "--arrival 2 --service 3 --places 8 --break 0.1 --repair 1/2",
    "priority": "--arrival 1,0.5 --service 3,2 --places 6",
    "fork-join": "--arrival 1 --service 1.5,2 --places 5",
    "erlang-service": "--arrival 0.7 --service 1 --phases 3 --places 8",
    "hyperexponential": "--arrival 0.6 --service 3,0.5 --quick 0.8 --places 8",
    "rework": "--arrival 0.5 --service 1,2 --again 0.25 --places 6,4",
}


def made(tool: Tool, tmp_path: Path, kind: str, words: str) -> Network:
    status, out, error = tool("psi-new", kind, *words.split(), "-o", "net.toml")
    assert (status, out, error) == (0, "", "")
    return Network.read(tmp_path / "net.toml")


def test_each_kind_is_tried() -> None:
    assert {*KIND_WORDS} == {*KINDS}


@pytest.mark.parametrize("kind", KIND_WORDS)
def test_a_kind_is_a_network_that_couples(tool: Tool, tmp_path: Path, psi: Psi, kind: str) -> None:
    net = made(tool, tmp_path, kind, KIND_WORDS[kind])
    assert (tmp_path / "net.toml").read_text().startswith("# ")
    if kind == "closed":
        assert psi.closed(net, 4, count=20).sum(axis=1).tolist() == [4] * 20
        return
    report = psi.report(net, 0, 0, 50)
    assert int(report["value"][1]) == 50


def test_erlangs_formula(tool: Tool, tmp_path: Path) -> None:
    """More than 64 servers, which want version 2, are the same queue."""
    for load, servers, version in ((7.5, 12, 1), (95, 100, 2)):
        net = made(tool, tmp_path, "erlang-loss", f"--arrival {load} --service 1 --servers {servers}")
        assert net.version() == version
        assert means_of(net)[1]["lost"] == pytest.approx(erlang_b(servers, load))


@pytest.mark.parametrize("kind", ["mm1k", "mmck", "abandonment", "erlang-loss", "closed"])
def test_the_formula_in_the_comment_is_what_is_solved(tool: Tool, tmp_path: Path, kind: str) -> None:
    net = made(tool, tmp_path, kind, KIND_WORDS[kind])
    comment = " ".join((tmp_path / "net.toml").read_text().split("version")[0].split("\n# "))
    if kind == "closed":
        reported = match_in(r"They are (\S+), (\S+) and (\S+)\.\s", comment).groups()
        assert [*map(float, reported)] == pytest.approx([*means_of(net, 4)[0].values()], rel=1e-5)
        return
    mean, full = match_in(r"birth and death (\S+) are .* for (\S+) of the time", comment).groups()
    queues, rewards = means_of(net)
    if kind == "mm1k":
        law = birth_and_death(0.8, [1] * 10)
        assert queues["desk"] == pytest.approx(sum(n * share for n, share in enumerate(law)))
    assert [float(mean)] == pytest.approx([*queues.values()], rel=1e-5)
    assert float(full) == pytest.approx(rewards.get("full", rewards.get("lost")), rel=1e-5)


def test_phases_have_the_mean_of_pollaczek_and_khinchine(tool: Tool, tmp_path: Path) -> None:
    # With room enough the mean number is rho + rho^2 (1 + c^2) / (2 (1 - rho)).
    first, second = 0.75 / 2 + 0.25 / 0.5, 2 * (0.75 / 4 + 0.25 / 0.25)
    for kind, words, rho, scv in (
        ("erlang-service", "--service 1 --phases 3", 0.3, 1 / 3),
        ("hyperexponential", "--service 2,0.5 --quick 0.75", 0.3 * first, second / first**2 - 1),
    ):
        net = made(tool, tmp_path, kind, f"--arrival 0.3 {words} --places 60")
        wanted = rho + rho**2 * (1 + scv) / (2 * (1 - rho))
        assert means_of(net)[0]["jobs"] == pytest.approx(wanted, rel=1e-6)


def test_rates_are_exact_where_there_is_room() -> None:
    net = Network().queue("a", 1).event("in", "arrival", Fraction("0.8"), to=["a"])
    net.event("out", "service", Fraction(1, 3), source="a")
    assert [*made_whole(net)] == [15, 0]
    assert [event["rate"] for event in net.table["event"]] == [12, 5]


def test_rates_are_rounded_where_there_is_none(tool: Tool) -> None:
    words = "--arrival 0.123456789 --service 99999937/999999937 --places 3"
    status, out, error = tool("psi-new", "mm1k", *words.split())
    assert status == 0
    assert "a rate is off by at most" in out.replace("\n# ", " ")
    assert error.startswith("psi-new: the rates are rounded: ")


@pytest.mark.parametrize(
    "words",
    [
        "",
        "mm1k",
        "mm2k",
        "mm1k --arrival 0 --service 1 --places 2",
        "mm1k --arrival 1 --service 1 --places 65536",
        "mmck --arrival 1 --service 1 --servers 5 --places 4",
    ],
)
def test_words_that_are_not_right(tool: Tool, words: str) -> None:
    status, out, error = tool("psi-new", *words.split())
    assert (status, out) == (2, "")
    assert error.startswith("psi-new: ") and error.count("\n") == 1


@pytest.mark.parametrize("kind", KIND_WORDS)
def test_the_comment_shows_what_psi_prints(tool: Tool, program: str, tmp_path: Path, kind: str) -> None:
    made(tool, tmp_path, kind, KIND_WORDS[kind])
    runs = SHOWN.findall((tmp_path / "net.toml").read_text())
    commands = ["closed"] if kind == "closed" else ["sample", "report"]
    assert [words.split()[0] for words, _ in runs] == commands
    for words, text in runs:
        wanted = "".join(line.removeprefix("#     ") for line in text.splitlines(True))
        assert ended([program, *words.split()], cwd=tmp_path)[:2] == (0, wanted)


def test_the_comment_of_what_does_not_couple(tool: Tool, program: str, tmp_path: Path) -> None:
    words = "--arrival 1000 --service 1 --servers 1023 --places 65535 -o".split()
    assert tool("psi-new", "mmck", *words, "odd name")[0] == 0
    [shown] = SHOWN.findall((tmp_path / "odd name").read_text())
    assert shown == ("sample net.toml 0 0", "#     not coupled within 262144\n")


def test_rates_that_would_be_off_are_refused(tool: Tool, tmp_path: Path) -> None:
    words = "--arrival 999999999 --service 0.000000001 --places 3 -o net.toml".split()
    status, out, error = tool("psi-new", "mm1k", *words)
    assert (status, out) == (2, "") and not (tmp_path / "net.toml").exists()
    assert error.startswith("psi-new: the format has no room for these rates: one would be off by ")
    status, out, error = tool("psi-new", "mm1k", *words, "--anyway")
    assert (status, out) == (0, "") and "off by at most" in error
    assert (tmp_path / "net.toml").exists()


def test_without_psi_nothing_is_shown(environment: dict[str, str], tmp_path: Path) -> None:
    words = "mm1k --arrival 1 --service 2 --places 3".split()
    # The package is read elsewhere, where no program is built.
    shutil.copytree(TOP / "python", tmp_path / "python")
    code = "import sys; from psi_tools.cli.entry import new; sys.exit(new())"
    elsewhere = {**environment, "PATH": "/usr/bin:/bin"}
    status, out, error = ended(["/usr/bin/python3", "-c", code, *words], cwd=tmp_path / "python", env=elsewhere)
    assert status == 0 and error.startswith("psi-new: there is no psi that checks the file")
    assert "` prints" not in out and "version = 1\n" in out
