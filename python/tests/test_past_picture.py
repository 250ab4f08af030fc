"""psi-plot past and path: runs and states are those of a plain walk, they end as psi says, sums are those of psi_paths,
and the pictures show them."""

import tomllib
from pathlib import Path

import pytest
from conftest import Tool, example, svg_ids
from matplotlib.axes import Axes

from oracle import paths as plain
from oracle.plain import Words
from oracle.plain_network import Network as Plain
from psi_tools.draw.program import companion_of
from psi_tools.errors import InputError
from psi_tools.model.networks import Network
from psi_tools.plot import style
from psi_tools.plot.draw_past import draw_past
from psi_tools.plot.draw_path import draw_path
from psi_tools.plot.past import Follower, past_of, path_of, row_of
from tests.figures import cut_off

SMALL = "first", "single-server", "tandem-blocking", "fork-join", "longest-queue", "reset"


def file_of(name: str) -> str:
    return str(example(name))


@pytest.mark.parametrize("name", SMALL)
def test_runs_end_where_psi_says(program: str, name: str) -> None:
    """Each run but the last leaves several states, and the last one is psi's sample (compared inside, too)."""
    for stream in range(3):
        past = past_of(program, file_of(name), 7, stream)
        assert [run.horizon for run in past.runs] == [1 << power for power in range(len(past.runs))]
        assert [run.has_coalesced for run in past.runs] == [False] * (len(past.runs) - 1) + [True]
        assert len(past.events) == past.runs[-1].horizon


@pytest.mark.parametrize("name", SMALL)
def test_runs_are_those_of_a_plain_walk(name: str) -> None:
    """A run's paths are a walk by the plain program's events, and a longer run ends with a shorter one's events."""
    table = tomllib.loads(example(name).read_text())
    plain, follower = Plain(table), Follower(Network.read(example(name)))
    run = follower.run(5, 11, 8)
    events = [
        plain.events[number] if number < len(plain.events) else None
        for number in (follower.net.event_of(5, 11, time) for time in range(8, 0, -1))
    ]
    assert run.paths is not None
    for path in run.paths:
        state = path[0]
        for event, after in zip(events, path[1:]):
            state = event.after(state) if event else state
            assert state == after
    assert len(run.paths) == len({path[0] for path in run.paths})


def test_a_large_network_is_followed_by_regions(program: str, tmp_path: Path) -> None:
    """Where there are too many paths, bounds are drawn, which hold those of a smaller split number."""
    text = example("tandem-blocking").read_text().replace("capacity = 4", "capacity = 40")
    (tmp_path / "large.toml").write_text(text)
    past = past_of(program, str(tmp_path / "large.toml"), 0, 0)
    assert past.runs[-1].has_coalesced and past.runs[0].paths is None
    assert all(low <= high for run in past.runs for one, two in zip(run.low, run.high) for low, high in zip(one, two))


def test_a_region_may_hold_more_than_the_paths(program: str) -> None:
    """With a small split number the paths coalesce before the region does, and the picture says both."""
    past = past_of(program, file_of("longest-queue"), 7, 0)
    followed = [(run, run.paths) for run in past.runs if run.paths is not None]
    wide = [run for run, paths in followed if len({path[-1] for path in paths}) == 1 < run.counts[-1]]
    assert (
        len(followed) == len(past.runs)
        and wide
        and all(
            low <= number <= high
            for run, paths in followed
            for path in paths
            for state, *ends in zip(path, run.low, run.high)
            for number, low, high in zip(state, *ends)
        )
    )
    texts = [text.get_text() for axes in draw_past((past, None), "").figure.axes for text in axes.texts]
    assert any("1 state left,\n" in text and "in the region" in text for text in texts)


def test_new_words_differ_from_run_to_run(program: str) -> None:
    """The wrong way draws each run from another stream; the right one keeps the words."""
    right, wrong = (past_of(program, file_of("single-server"), 0, 1, new) for new in (False, True))
    assert right.has_new_words is False and wrong.has_new_words is True
    follower = Follower(Network.read(example("single-server")))
    assert wrong.runs[1] == follower.run(0, 2, 2) and right.runs[1] == follower.run(0, 1, 2)


def test_each_run_has_a_row(program: str) -> None:
    """The picture has a band and an end for each run, paths where they are drawn, and says how each one ends."""
    past = past_of(program, file_of("tandem-blocking"), 0, 0)
    figure = draw_past((past, None), "")
    ids = svg_ids(style.saved(figure, "svg"))
    assert all(ids.count(kind) == len(past.runs) for kind in ("band", "end", "paths"))
    texts = [text.get_text() for axes in figure.axes for text in axes.texts]
    assert "64 steps:\ncoalesced in\nstate 3,2,1" in texts and "32 steps:\n2 states left" in texts


def test_no_text_is_cut_off(program: str, tmp_path: Path) -> None:
    """Each text is within the picture, with many queues and long names too."""
    net = Network()
    for place in range(12):
        net.queue(f"a-queue-with-a-long-name-{place}", 40)
        net.event(f"come-{place}", "arrival", 1, to=[f"a-queue-with-a-long-name-{place}"])
        net.event(f"serve-{place}", "service", 5, f"a-queue-with-a-long-name-{place}")
    net.write(tmp_path / "wide.toml")
    for path, queue in ((str(tmp_path / "wide.toml"), 11), (file_of("first"), None), (file_of("tandem-blocking"), 0)):
        figure = draw_past((past_of(program, path, 0, 0), queue), "A title that is long enough for two lines " * 2)
        assert cut_off(figure) == []


def test_the_command_draws_and_refuses(tool: Tool, tmp_path: Path) -> None:
    """The command draws a queue; wrong arguments are refused by one line with status 2."""
    words = "psi-plot", "past", file_of("tandem-blocking"), "0", "0"
    assert tool(*words, "--queue", "drill", "-o", "past.svg") == (0, "", "")
    assert (tmp_path / "past.svg").read_bytes().startswith(b"<?xml")
    for bad in (
        [*words[:-1], "-o", "x.svg"],
        [*words, "--queue", "none", "-o", "x.svg"],
        [*words[:-1], "1.5", "-o", "x.svg"],
    ):
        status, out, err = tool(*bad)
        assert (status, out, err.count("\n")) == (2, "", 1)
    assert not (tmp_path / "x.svg").exists()


def test_a_network_that_does_not_coalesce_is_refused(program: str, tmp_path: Path) -> None:
    """Longer runs than can be drawn are refused by name."""
    ring = Network().queue("a", 2).queue("b", 2)
    ring.event("there", "service", 1, "a", ["b"], full="stay").event("back", "service", 1, "b", ["a"], full="stay")
    ring.write(tmp_path / "never.toml")
    with pytest.raises(InputError, match="4,096 steps"):
        past_of(program, str(tmp_path / "never.toml"), 0, 0)


@pytest.mark.parametrize("name", ("first", "tandem-blocking", "fork-join", "call-centre", "longest-queue"))
def test_states_and_sums_are_those_of_a_plain_walk(program: str, name: str) -> None:
    net = Plain(tomllib.loads(Path(file_of(name)).read_text()))
    for stream in range(2):
        found = path_of(program, file_of(name), 7, stream, 50)
        [drawn] = plain.outcomes_of(net, 7, [stream])
        assert drawn == (found.run.horizon, found.states[0])
        walk = [state for _, state in plain.states_of(net, Words(7, stream), drawn[1], 50)]
        assert found.states[1:] == walk
        assert row_of(Network.read(file_of(name)), found) == plain.row(net, 7, stream, drawn, 50)


def lines_of(axes: Axes, name: str) -> tuple[list[int], list[float]]:
    """The points of a line of a picture."""
    [line] = [line for line in axes.lines if line.get_gid() == name]
    return [*map(int, line.get_xdata())], [*line.get_ydata()]


def test_the_picture_has_the_path_beside_the_coupling(program: str) -> None:
    found = path_of(program, file_of("tandem-blocking"), 0, 2, 40)
    figure = draw_path((found, [0, 2]), "").figure
    assert len(figure.axes) == 4
    for queue, (before, after) in zip((0, 2), (figure.axes[:2], figure.axes[2:])):
        times, numbers = lines_of(after, "path")
        assert (times, numbers) == ([*range(41)], [state[queue] for state in found.states])
        assert lines_of(after, "mean")[1][0] == pytest.approx(sum(numbers) / 41)
        for name, ends in (("low", found.run.low), ("high", found.run.high)):
            times, numbers = lines_of(before, name)
            assert (times[0], times[-1]) == (-found.run.horizon, 0)
            assert numbers == [state[queue] for state in ends]
        assert lines_of(before, "end")[1] == [found.states[0][queue]]


@pytest.mark.slow
def test_the_tool_draws_a_path(tool: Tool, program: str) -> None:
    words = "path", file_of("tandem-blocking"), 0, 2, "--psi", program, "-o"
    assert tool("psi-plot", *words, "a.svg") == (0, "", "")
    assert tool("psi-plot", *words, "b.svg", "--steps", 0, "--queue", "drill") == (0, "", "")
    for more, line in (
        (("--queue", "none"), "there is no queue none"),
        (("--steps", 4_097), "a path of more than 4,096 steps isn't drawn"),
        (("--new-words",), "--new-words is past's"),
    ):
        status, out, err = tool("psi-plot", *words, "c.svg", *more)
        assert (status, out) == (2, "") and err.rstrip().endswith(line)
    for call, line in (
        (("past", file_of("first"), 0, 0, "--steps", 1), "--steps is path's"),
        (("path", file_of("first"), 0, "--psi", program), "path is given NET SEED STREAM"),
    ):
        assert tool("psi-plot", *call, "-o", "c.svg") == (2, "", f"psi-plot: {line}\n")


def test_a_sample_that_is_not_coupled_has_no_path(program: str) -> None:
    with pytest.raises(InputError, match="isn't coupled within 64 steps"):
        path_of(program, file_of("short-past"), 0, 0, 5)


def test_other_sums_are_refused(program: str, monkeypatch: pytest.MonkeyPatch) -> None:
    monkeypatch.setattr("psi_tools.plot.past.companion_of", lambda path, name: "there")
    monkeypatch.setattr("psi_tools.draw.program.Program.paths", lambda self, *words: "stream\n")
    with pytest.raises(InputError, match="psi_paths and the plain follower differ"):
        path_of(program, file_of("first"), 0, 0, 5)
    assert companion_of(program, "psi") is not None
