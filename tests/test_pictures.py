"""What tools/psi-plot draws is compared with its inputs, which are read here once more and plainly: logs
of both versions, with sets and with boxes, of one queue and of 32, some of which the program writes;
reports, one and several; texts of exact; forward runs of some networks of the gallery. In each picture
no text is cut off, and no two overlap. The same input is the same picture. Broken inputs have to be
refused, each by one line, with status 2 and without a picture. The pictures of docs/TOUR.md are there,
and what mean_values.py prints is what it says.
"""

import collections
import concurrent.futures
import math
import os
import pathlib
import re
import sys
import xml.etree.ElementTree

import matplotlib.legend
import matplotlib.text
import numpy
import pytest
from collections.abc import Collection, Iterator, Sequence
from typing import Any

from oracle.log_regions import Region, regions_of
from psi_tools.draw.reports import read_report
from psi_tools.io.exact import read_exact
from psi_tools.plot import draw_coupling, draw_exact, draw_forward, draw_report, style
from psi_tools.plot.forward import forward_of
from psi_tools.plot.read_log import names_of, read_log
from psi_tools.stats.batches import batches_of, summary_of
from tests.figures import cut_off, overlapping
from tests.gallery import logs_of_formats
from tests.support import TOOLS, TOP, Expectations, TextAnswer, answer_as_text, printed_by, report_of, write

PLOT = TOOLS / "psi-plot"
MOST_BYTES, MOST_BYTES_SHOWN, SECONDS = 1_000_000, 200_000, 100
MARKS = "constant", "region", "both"
SMALL_LOG, _ = logs_of_formats()
REPORT = """item,name,value
samples,-,10
met,-,9
uncoupled,-,1
horizon,4,3
horizon,16,6
sum,a,18
least,a,0
greatest,a,5
reward-sum,cost,-5000000000000000
reward-least,cost,-1000000000000000
reward-greatest,cost,9
"""
EXACT = """states 64
image 1 48
image 2 36
image 4 19
image 8 1
constant 7 2,3,2
region 8
"""


def wide_log(horizon: int = 700, queues: int = 32) -> str:
    """A log of many queues: boxes that move, then sets, then one state."""
    high = [3 + 97 * (queue % 7 == 0) + 65_000 * (queue == 5) for queue in range(queues)]
    zeros = ",".join(["0"] * queues)
    lines = ["psi-log 2", f"queues {queues}", f"seed {2**64 - 1}", f"stream {10**19}"]
    lines += [f"horizon {horizon}", f"begin box {zeros} {','.join(map(str, high))}"]
    for time in range(horizon, 0, -1):
        queue, state = time % queues, [(time * (k + 3)) % (high[k] + 1) for k in range(queues)]
        if time > horizon * 2 // 3:
            # Each queue's ends differ from those that it had the last time.
            low = time // queues % 2
            change = f"move {queue},{low},{high[queue] - 1}"
        else:
            size = 3 if time > horizon // 3 else 1
            states = sorted({tuple([k, *state[1:]]) for k in range(size)})
            change = "set " + " ".join(",".join(map(str, each)) for each in states)
        lines.append(f"step {time} 0 {change}")
    return "\n".join([*lines, f"end {','.join(map(str, states[0]))}", ""])


def made_report(names: Sequence[str], rewards: Sequence[str], met: int, lost: int = 0, factor: int = 1) -> str:
    """A report with as many queues and rewards as there are names."""
    lines = ["item,name,value", f"samples,-,{met + lost}", f"met,-,{met}", f"uncoupled,-,{lost}"]
    counts = [met // 22] * 21 + [met - met // 22 * 21]
    lines += [f"horizon,{1 << k},{count}" for k, count in enumerate(counts) if count]
    for prefix, some, factor in (("", names, 100), ("reward-", rewards, factor)):
        for place, name in enumerate(some):
            lines.append(f"{prefix}sum,{name},{met * place * factor}")
            if met:
                lines.append(f"{prefix}least,{name},{place * factor // 2}")
                lines.append(f"{prefix}greatest,{name},{place * factor * 2}")
    return "\n".join(lines) + "\n"


def exact_of(states: int, sizes: Sequence[int], constant: int | None, region: int | None) -> str:
    lines = [f"states {states}", *(f"image {1 << k} {size}" for k, size in enumerate(sizes))]
    longest = 1 << (len(sizes) - 1)
    lines.append(f"constant {constant} 1,2" if constant else f"not constant within {longest}")
    return "\n".join([*lines, f"region {region or 'none'}", ""])


# By the word that draws it: a right text, others that are none, and what stands in it with what makes it wrong.
BROKEN: dict[str, tuple[str, tuple[str, ...], dict[str, list[str]]]] = {
    "coupling": (
        SMALL_LOG,
        ("", "psi-log", "psi-log 3\n", SMALL_LOG[:-1], SMALL_LOG + "\n", SMALL_LOG.replace("\n", "\r\n"), EXACT),
        {
            "queues 2": ["queues 0", "queues 3"],
            "horizon 8": ["horizon 9"],
            "seed 0": ["seed -1"],
            "box 0,0 1,1": ["box 1,1 0,0"],
            "step 7 2": ["step 6 2"],
            "step 8 0": ["step 9 0"],
            "move 0,0,0": ["move 0,0,1", "move 2,0,0"],
            "move 1,0,0": ["move 1,0,2"],
            "set 0,1": ["set 0,1 1,1", "set 0,2"],
            "end 0,1": ["end 1,1", "end 0"],
            "psi-log 2": ["psi-log 1"],
            "8 0": ["8  0"],
        },
    ),
    "report": (
        REPORT,
        (
            *("", REPORT[:-1], REPORT + "\n", REPORT + REPORT, "trial 0\n" + REPORT, "item,name,value\n", SMALL_LOG),
            *(REPORT.replace("\n", "\r\n", 1), REPORT.replace("\n", "\r"), REPORT.replace("a", "\u00e4")),
        ),
        {
            "met,-,9": ["met,-,8"],
            "samples,-,10": ["samples,-,0"],
            "horizon,4,3": ["horizon,5,3", "horizon,16,3", "horizon,4,4"],
            "sum,a,18": ["sum,a,99", "sum,a,1.8", "sum,a,018"],
            "least,a,0": ["least,b,0"],
            "least,a,0\n": [""],
            "uncoupled,-,1\n": [""],
            "sum,a,": ["sum,a b,"],
        },
    ),
    "exact": (
        EXACT,
        ("", EXACT[:-1], EXACT + "region 8\n", EXACT.replace("region 8\n", ""), EXACT.replace("1", "x"), REPORT),
        {
            "states 64": ["states 1", "states 40"],
            "image 1 48\n": [""],
            "image 4 19": ["image 4 40"],
            "image 8 1": ["image 8 2"],
            "constant 7": ["constant 3", "constant 9"],
            "region 8": ["region 6", "region 9"],
            "constant 7 2,3,2": ["not constant within 8", "constant 7"],
        },
    ),
}


def broken_inputs() -> Iterator[tuple[str, str]]:
    """Words and the text of the file that they name, which isn't what it should be."""
    for what, (right, others, changes) in BROKEN.items():
        yield from ((what, text) for text in others)
        for old, texts in changes.items():
            assert old in right
            yield from ((what, right.replace(old, text, 1)) for text in texts)


def met_of(regions: list[Region]) -> int:
    """The time from which on there is one state."""
    last = max((place for place, region in enumerate(regions) if region[2] > 1), default=-1)
    return last + 1 - (len(regions) - 1)


def gids(axes: Any, name: str) -> dict[str, Any]:
    """What is drawn under names that begin so, each with the rest of its name."""
    found = {artist.get_gid() or "": artist for artist in axes.get_children()}
    return {gid.removeprefix(name): artist for gid, artist in found.items() if gid.startswith(name)}


def drawn_ends(axes: Any, queue: int) -> tuple[list[Any], Any]:
    """The ends of the bands that are drawn for a queue, column by column, with the edges; a number
    is half a step beyond its end, but where there is one state."""
    ends: dict[int, Any] = {}
    edges: Any = ()
    for kind, band in gids(axes, f"band-{queue}-").items():
        values, edges, base = band.get_data()
        half = 0 if kind == "one" else 0.5
        for column, (low, high) in enumerate(zip(base, values)):
            if not math.isnan(low):
                ends[column] = (low + half, high - half, kind)
    return [ends.get(column) for column in range(len(edges) - 1)], edges


def try_texts(expect: Expectations, figure: Any, name: str) -> None:
    """No text is cut off, or lies over another one."""
    cut = cut_off(figure, 1)
    expect(not cut, f"{name}: {cut} is cut off")
    for legend in figure.findobj(matplotlib.legend.Legend):
        box = legend.get_window_extent()
        expect(0 <= box.x0 and box.x1 <= figure.bbox.width, f"{name}: the legend is cut off")
    over = overlapping(figure)
    expect(not over, f"{name}: {over[:3]} overlap")


def try_svg(expect: Expectations, figure: Any, name: str, gids_wanted: Collection[str]) -> None:
    """The SVG is one, is small, and has what is drawn under these names."""
    data = style.saved(figure, "svg")
    expect(len(data) < MOST_BYTES, f"{name}: the SVG has {len(data)} bytes")
    found = {element.get("id") for element in xml.etree.ElementTree.fromstring(data).iter()}
    absent = {*gids_wanted} - found
    expect(not absent, f"{name}: the SVG lacks {sorted(absent)[:5]}")


def try_log(expect: Expectations, text: str, name: str, net: str | None = None) -> Any:
    """The picture of a log shows its regions."""
    regions, log = [*regions_of(text)], read_log(text.encode())
    if net is not None:
        log.names = names_of(net.encode(), log)
    figure, horizon, queues = draw_coupling.draw_coupling(log, ""), len(regions) - 1, len(log.names)
    head, *axes, last = figure.axes
    expect(len(axes) == queues, f"{name}: {len(axes)} bands of {queues} queues")
    width = -(-(horizon + 1) // len(log.bins))
    bins = [regions[k : k + width] for k in range(0, horizon + 1, width)]
    for queue, panel in enumerate(axes):
        wanted = [(min(low[queue] for low, *_ in some), max(high[queue] for _, high, *_ in some)) for some in bins]
        ends, edges = drawn_ends(panel, queue)
        expect([end and end[:2] for end in ends] == wanted, f"{name}: the band of queue {queue}")
        expect((edges[0], edges[-1]) == (-horizon - 0.5, 0.5), f"{name}: the ends of the times")
        expect({*panel.get_xticks()} >= {-horizon, 0}, f"{name}: the ticks of queue {queue}")
        low, high = panel.get_ylim()
        expect(low < regions[0][0][queue] and regions[0][1][queue] < high, f"{name}: the axis")
        has_set = any(some is not None and len(some) > 1 for *_, some in regions)
        expect(has_set == bool(gids(panel, f"shades-{queue}")), f"{name}: the shades of queue {queue}")
    try_shades(expect, axes, regions, width, name)
    try_states(expect, last, [max(region[2] for region in some) for some in bins], name)
    for panel in [*axes, last]:
        (line,) = gids(panel, "met-").values()
        met = [*line.get_xdata()]
        expect(met == [met_of(regions) - 0.5] * 2, f"{name}: {met} is marked")
    try_texts(expect, figure, name)
    return figure


def try_shades(expect: Expectations, axes: Sequence[Any], regions: list[Region], width: int, name: str) -> None:
    """Each shade is the part of the states of a set that have the number."""
    if width > 1 or max(regions[0][1]) >= 96:
        return
    for queue, panel in enumerate(axes):
        for image in gids(panel, f"shades-{queue}").values():
            dots, low = image.get_array(), regions[0][0][queue]
            tall = len(dots) // (regions[0][1][queue] - low + 1)
            wide = len(dots[0]) // len(regions)
            shown = [
                {low + k: cell for k, cell in enumerate(column) if cell is not None}
                for column in zip(*dots[::tall, ::wide].tolist())
            ]
            counts: list[dict[int, int]] = [
                dict(collections.Counter(state[queue] for state in some or () if size > 1))
                for *_, size, some in regions
            ]
            wanted = [{n: count / sum(c.values()) for n, count in c.items()} for c in counts]
            expect(shown == wanted, f"{name}: the shades of queue {queue}")


def try_states(expect: Expectations, axes: Any, wanted: list[int], name: str) -> None:
    """The line of the number of states."""
    lines = [enumerate(line.get_data()[0]) for line in gids(axes, "states-").values()]
    found = {column: count for line in lines for column, count in line if not math.isnan(count)}
    is_same = [found[column] for column in range(len(wanted))] == [*map(float, wanted)]
    expect(is_same and axes.get_yscale() == "log", f"{name}: the numbers of states")


def version_1(text: str) -> str:
    """A log of version 2 in version 1, in which each box is whole."""
    lines = text.replace("psi-log 2", "psi-log 1").split("\n")
    for place, (low, high, *_) in zip(range(5, len(lines)), regions_of(text)):
        front, found, _ = lines[place].partition(" move")
        if found:
            ends = (",".join(map(str, end)) for end in (low, high))
            lines[place] = front + " box " + " ".join(ends)
    return "\n".join(lines)


@pytest.mark.slow
def test_logs(expect: Expectations, program: str) -> None:
    """Pictures of logs that the program writes, and of others."""
    for version in (SMALL_LOG, version_1(SMALL_LOG)):
        try_log(expect, version, version[:9])
    for name in ("single-server", "tandem-blocking", "longest-queue", "batch-arrivals"):
        net = (TOP / f"examples/{name}.toml").read_text()
        text = printed_by(program, "sample", TOP / f"examples/{name}.toml", 0, 0, "log")
        try_log(expect, text, name, net)
    try_log(expect, version_1(text), name)
    head = "psi-log 1\nqueues 1\nseed 0\nstream 0\nhorizon 1\n"
    try_log(expect, head + "begin set 0 1\nstep 1 0 box 1 1\nend 1\n", "one step")
    figure = try_log(expect, wide_log(), "32 queues")
    bands = {f"band-{queue}-{kind}" for queue in range(32) for kind in ("box", "set", "one")}
    try_svg(expect, figure, "32 queues", bands | {f"met-{queue}" for queue in range(32)})


def try_report(expect: Expectations, texts: Sequence[tuple[str, str]], name: str) -> Any:
    """The picture of some reports shows their numbers."""
    named = [(path, summary_of(batches_of([read_report(text.encode(), path)]))) for path, text in texts]
    figure = draw_report.draw_report(named, "")
    drawn: dict[str, Any] = {}
    for axes in figure.axes:
        drawn |= gids(axes, "")
        for bar in axes.patches:
            drawn[bar.get_gid()] = bar
    for k, (_, text) in enumerate(texts):
        rows = report_of(text)
        met, samples = rows["met", "-"], rows["samples", "-"]
        shown = {
            gid.split("-")[2]: round(bar.get_height() * samples / 100, 6)
            for gid, bar in drawn.items()
            if gid and gid.startswith(f"horizon-{k}-")
        }
        wanted = {"none": rows["uncoupled", "-"]}
        wanted |= {str(int(n).bit_length() - 1): v for (i, n), v in rows.items() if i == "horizon"}
        shown = {power: count for power, count in shown.items() if count or power == "none"}
        expect(shown == wanted, f"{name}: the horizons of report {k}")
        for (item, queue), total in rows.items():
            if item == "sum" and met:
                (mean,) = drawn[f"mean-{k}-{queue}"].get_xdata()
                ends = [*drawn[f"spread-{k}-{queue}"].get_xdata()]
                expect(mean == total / met, f"{name}: the mean of {queue}")
                expect(ends == [rows["least", queue], rows["greatest", queue]], f"{name}: the ends of {queue}")
    texts_shown = {text.get_text() for text in figure.findobj(matplotlib.text.Text)}
    for _, text in texts:
        names = {n for i, n in report_of(text) if i.endswith("sum")}
        expect(len(names) > 20 or names <= texts_shown, f"{name}: names that aren't shown")
    try_texts(expect, figure, name)
    return figure


@pytest.mark.slow
def test_reports(expect: Expectations, program: str) -> None:
    """Pictures of one report and of several."""
    text = printed_by(program, "report", TOP / "examples/tandem-blocking.toml", 0, 0, 50)
    try_report(expect, [("tandem-blocking.csv", text)], "a report")
    other = made_report(["a", "b"], [], 44)
    try_report(expect, [("_a.csv", REPORT), ("b/$x$.csv", other)], "two reports")
    try_report(expect, [("none.csv", made_report(["a"], ["r"], 0, 7))], "no sample is met")
    names = [f"{k:02}" + "W" * 30 for k in range(32)]
    rewards = [f"reward-{k:02}-of-a-great-network" for k in range(64)]
    many = made_report(names, rewards, 65_536, 3, 10**12)
    figure = try_report(expect, [("many.csv", many)], "many rows")
    try_svg(expect, figure, "many rows", [f"mean-0-{name}" for name in names])
    eight = [(f"{'long-name-' * 6}{k}.csv", made_report(["a", "b"], ["c"], 22 + k, k)) for k in range(8)]
    try_svg(expect, try_report(expect, eight, "eight reports"), "eight reports", ["mean-7-b"])


@pytest.mark.slow
def test_exact(expect: Expectations, program: str) -> None:
    """Pictures of texts of exact."""
    printed = printed_by(program, "exact", TOP / "examples/longest-queue.toml", 0, 0, 11)
    cases = [
        (printed, 30, 1586),
        (EXACT, 7, 8),
        (exact_of(2, [2], None, None), None, None),
        (exact_of(65_536, [60_000] * 13, None, None), None, None),
        (exact_of(2, [1], 1, 1), 1, 1),
        (exact_of(9, [9] * 12 + [1], 2049, 2050), 2049, 2050),
        (exact_of(65_536, [9, 1, 1], 2, None), 2, None),
    ]
    for text, constant, region in cases:
        name = f"exact of {constant} and {region}"
        figure = draw_exact.draw_exact(read_exact(text.encode()), "")
        (axes,) = figure.axes
        found = gids(axes, "")
        lines = [line.split() for line in text.split("\n")]
        images = [tuple(map(int, words[1:])) for words in lines if words[:1] == ["image"]]
        expect([*zip(*found["images"].get_data())] == images, f"{name}: the images")
        marked = {gid: line.get_xdata()[0] for gid, line in found.items() if gid in MARKS}
        wanted = {"both": constant} if constant == region else {"constant": constant, "region": region}
        wanted = {gid: time for gid, time in wanted.items() if time is not None}
        expect(marked == wanted, f"{name}: {marked} is marked")
        expect([*axes.get_xticks()] == [time for time, _ in images], f"{name}: the ticks")
        try_texts(expect, figure, name)
    try_svg(expect, figure, "exact", ["images", "line", "constant"])


@pytest.mark.slow
def test_forward(expect: Expectations, program: str) -> None:
    """Pictures of forward runs: the lines and bars have the laws, and no text is cut off."""
    for name, words in (
        ("single-server", ("8", "32", "128")),
        ("first", ("1",)),
        ("call-centre", ()),
        ("short-past", ("5", "4194304")),
    ):
        found = forward_of(program, str(TOP / f"examples/{name}.toml"), words)
        figure = draw_forward.draw_forward(found, "A title " * 20 if name == "first" else "")
        parts = figure.axes[: len(found.after)]
        for axes, (steps, ends) in zip(parts, found.after.items()):
            lines = gids(axes, "")
            drawn = [lines[f"after-{steps}-from-{k}"].get_ydata() for k in range(len(ends))]
            expect((numpy.array(drawn) == ends).all(), f"forward of {name}: {steps} steps")
            expect((lines[f"law-{steps}"].get_ydata() == found.law).all(), f"forward of {name}: the law")
        bars = [bar.get_height() for bar in figure.axes[len(found.after)].patches]
        expect(bars == [*found.met], f"forward of {name}: where all meet")
        try_texts(expect, figure, f"forward of {name}")
    try_svg(expect, figure, "forward", ["after-5-from-0", "law-5", "law-met", "met-0"])


def plotted(words: Sequence[object], room: pathlib.Path) -> TextAnswer:
    """The status of a call of psi-plot, and both its texts."""
    return answer_as_text([PLOT, *words], room, SECONDS)


@pytest.fixture
def room(tmp_path: pathlib.Path) -> pathlib.Path:
    """A folder with a small log and a small report."""
    write(tmp_path, {"small.log": SMALL_LOG.encode(), "small.csv": REPORT.encode()})
    return tmp_path


@pytest.mark.slow
def test_refusals(expect: Expectations, room: pathlib.Path) -> None:
    """Each broken input is refused by one line, with status 2, and nothing is drawn; so are words
    that aren't a command."""
    calls = [
        [],
        ["-o", "drawn.svg"],
        ["draw", "small.log", "-o", "drawn.svg"],
        ["coupling", "small.log"],
        ["coupling", "-o", "drawn.svg"],
        ["coupling", "small.log", "-o", "drawn.gif"],
        ["coupling", "absent.log", "-o", "drawn.svg"],
        ["coupling", ".", "-o", "drawn.svg"],
        ["coupling", "small.log", "small.csv", "-o", "drawn.svg"],
        ["report", "-x", "small.csv"],
        ["coupling", "small.log", TOP / "examples/first.toml", "-o", "drawn.svg"],
        ["report", *["small.csv"] * 9, "-o", "drawn.svg"],
        ["exact", "a\nb", "-o", "drawn.svg"],
    ]
    for place, (what, text) in enumerate(broken_inputs()):
        (room / f"{place}.txt").write_text(text, newline="")
        calls.append([what, f"{place}.txt", "-o", "drawn.svg"])
    with concurrent.futures.ThreadPoolExecutor(os.cpu_count()) as pool:
        answers = [*pool.map(lambda words: plotted(words, room), calls)]
    for words, (status, out, err) in zip(calls, answers):
        is_refused = (status, out) == (2, "") and re.fullmatch("psi-plot: [^\n]+\n", err)
        expect(is_refused, f"{words}: {status} {err}")
    expect(not (room / "drawn.svg").exists(), "what is refused is drawn")
    expect(place >= 49, f"only {place + 1} inputs are broken")


@pytest.mark.slow
def test_words(expect: Expectations, room: pathlib.Path) -> None:
    """Pictures of each form, and one that can't be written."""
    for form, front in (("svg", b"<?xml"), ("png", b"\x89PNG"), ("pdf", b"%PDF")):
        words = ["coupling", "small.log", "-t", "A title with $ and _", "-o", f"drawn.{form}"]
        expect(plotted(words, room) == (0, "", ""), f"{words} aren't drawn")
        expect((room / words[-1]).read_bytes().startswith(front), f"{words} draw no {form}")
    first = (room / "drawn.svg").read_bytes()
    plotted([*words[:-1], "drawn.svg"], room)
    expect((room / "drawn.svg").read_bytes() == first, "the same log is another picture")
    names = re.findall(rb'<clipPath id="([^"]*)"', first)
    numbered = [b"clip%d" % number for number in range(len(names))]
    expect(names and sorted(names) == sorted(numbered), f"clip paths are called {names}")
    status, _, err = plotted(["report", "small.csv", "-o", "absent/drawn.svg"], room)
    expect(status == 7 and err.count("\n") == 1, f"an absent folder: {status} {err}")
    status, out, err = plotted(["-h"], room)
    expect(status == 0 and "psi-plot coupling" in out and not err, "the words aren't told")


def test_pictures_of_the_tour(expect: Expectations, program: str) -> None:
    """The pictures of the tour are there, and what mean_values.py prints is what it says."""
    text = (TOP / "docs/TOUR.md").read_text()
    shown = re.findall(r"!\[[^\]]+\]\(pictures/([^)]+\.svg)\)", text)
    there = {path.name: path for path in (TOP / "docs/pictures").glob("*.svg")}
    networks = {f"network-{net.stem}.svg" for net in (TOP / "examples").glob("*.toml")}
    is_all = len(shown) == 12 and {*shown} | networks == {*there}
    expect(is_all, "the tour and the gallery do not show all pictures")
    for name, path in there.items():
        expect(path.stat().st_size < MOST_BYTES_SHOWN, f"{name} is too great")
        xml.etree.ElementTree.parse(path)
    form = r"^```\npython3 (tools/mean_values.py [^\n]*)\n```\n\nprints\n\n```\n(.*?)^```\n"
    environment = {**os.environ, "PATH": f"{os.path.dirname(program)}:{os.environ['PATH']}"}
    for shown_words, wanted in re.findall(form, text, re.M | re.S):
        out = printed_by(sys.executable, *shown_words.split(), env=environment)
        expect(out == wanted, f"{shown_words} prints {out}")
