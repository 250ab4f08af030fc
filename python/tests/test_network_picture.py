"""psi-plot network: the picture has what the file has, nothing is cut off, and names are only names."""

import itertools
import math
import os
import re
import sys
import tomllib
import xml.etree.ElementTree
from pathlib import Path
from typing import Any

import pytest
from conftest import TOP, Tool, ended, example, match_in, svg_ids
from matplotlib.figure import Figure

from psi_tools.model.networks import Network, Table
from psi_tools.plot import style
from psi_tools.plot.draw_network import MOST_SERVERS, draw_network
from psi_tools.plot.network_layout import folded, laid_out, size_of
from psi_tools.plot.network_scene import Arrow, NetworkPicture, Node, scene_of
from tests.figures import cut_off, overlapping, texts_of

GALLERY = sorted((TOP / "examples").glob("*.toml"))
NAMES = [path.stem for path in GALLERY]
# The graphviz that laid out the pictures in docs/pictures, and the events that servers make.
GRAPHVIZ = "graphviz version 2.43.0"
SERVING = "service", "index", "negative", "fork"


def names_in(value: str | list[str] | None) -> list[str]:
    return [value] if isinstance(value, str) else value or []


def line_of(count: int) -> Network:
    """A line of queues with blocking."""
    net = Network()
    for place in range(count):
        net.queue(f"queue-{place}", capacity=5 + place, servers=1 + place % 5)
    net.event("come", "arrival", 3, to=["queue-0"])
    for place in range(count - 1):
        net.event(f"serve-{place}", "service", 4, f"queue-{place}", [f"queue-{place + 1}"], full="stay")
    return net.event("leave", "service", 4, f"queue-{count - 1}")


EACH = pytest.mark.parametrize("path", GALLERY, ids=NAMES)
EACH_AND_A_LINE = pytest.mark.parametrize("net", [line_of(32), *map(Network.read, GALLERY)], ids=["line", *NAMES])


def drawn(net: Network, **more: Any) -> Figure:
    """The figure of a network."""
    return draw_network(NetworkPicture(net, "title", **more))


def ids_of(net: Network) -> list[str]:
    """The ids of the elements of the SVG of a network."""
    return svg_ids(style.saved(drawn(net), "svg"))


def counted(ids: list[str], kind: str) -> int:
    """How many elements have an id of this kind, without what belongs to another."""
    return sum(each.startswith(f"{kind}-") and not each.endswith(("-head", "-blocks")) for each in ids)


def expected_arrows(event: Table) -> int:
    """How many arrows an event of a file has, by its kind: those of its customers, and that of the lost."""
    to, sources, kind = names_in(event.get("to")), names_in(event.get("from")), event["kind"]
    stays = event.get("full") == "stay"
    if kind in ("arrival", "batch"):
        return len(to) + 1
    if kind == "service":
        return len(to) + (not stays) if to else 1
    if kind == "index":
        return 1 + len(to) + (not (stays and sources))
    if kind == "fork":
        return 1 + len(to) + (not sources)
    if kind == "join":
        return len(sources) + 1
    return 1 if kind == "negative" else len(event["part"])


@EACH
def test_the_picture_has_what_the_file_has(path: Path) -> None:
    """As many queues, servers and arrows as the file has, in every network of the gallery."""
    table, ids = tomllib.loads(path.read_text()), ids_of(Network.read(path))
    assert counted(ids, "queue") == len(table["queue"])
    served = {name for event in table["event"] if event["kind"] in SERVING for name in names_in(event.get("from"))}
    servers = [queue.get("servers", 1) for queue in table["queue"] if queue["name"] in served]
    assert counted(ids, "server") == sum(count if count <= MOST_SERVERS else 1 for count in servers)
    assert counted(ids, "arrow") == sum(map(expected_arrows, table["event"]))
    for kind, word in (("bar", ("fork", "join")), ("choice", ("index",)), ("guard", ("guarded",))):
        assert counted(ids, kind) == sum(event["kind"] in word for event in table["event"])


@EACH
def test_blocking_is_marked_at_the_source(path: Path) -> None:
    """A service that stays where its target is full has a double bar at its first arrow, and no other has."""
    events = tomllib.loads(path.read_text())["event"]
    stays = sum(event.get("full") == "stay" for event in events if event["kind"] in ("service", "index"))
    stays += sum(bool(event.get("from")) for event in events if event["kind"] == "fork")
    stays += sum(len(event["from"]) for event in events if event["kind"] == "join" and event.get("to"))
    assert sum(each.endswith("-blocks") for each in ids_of(Network.read(path))) == 2 * stays


@EACH_AND_A_LINE
def test_no_text_is_cut_off(net: Network) -> None:
    """Each text is within the picture."""
    assert cut_off(drawn(net, with_legend=True, with_tables=True)) == []


@EACH_AND_A_LINE
def test_texts_can_be_read_on_a_slide(net: Network) -> None:
    """On a slide of 13.33 by 7.5 inches no text is smaller than 5.5 points."""
    figure = drawn(net, with_legend=True)
    width, height = figure.get_size_inches()
    scale = min(13.33 / width, 7.5 / height)
    assert min(text.get_fontsize() for text in figure.axes[0].texts) * scale >= 5.5


@EACH_AND_A_LINE
def test_no_text_covers_another(net: Network) -> None:
    """Each text stands apart from all others."""
    assert overlapping(drawn(net, with_legend=True, with_tables=True)) == []


@EACH
def test_losses_are_small_arrows(path: Path) -> None:
    """Each arrow of customers who are lost is short: its cross stands beside its source."""
    scene = scene_of(Network.read(path))
    layout = laid_out(scene)
    for arrow, curve in zip(scene.arrows, layout.curves):
        if arrow.kind is Arrow.LOSS:
            (across, up), tip = curve.points[0], curve.tip
            assert math.hypot(across - tip[0], up - tip[1]) < 0.6


def test_a_long_line_is_folded() -> None:
    """A line of 32 queues takes several rows, none of its nodes covers another, and none is lost."""
    net = line_of(32)
    scene = scene_of(net)
    layout = folded(laid_out(scene), scene)
    assert layout.size[0] < 3 * layout.size[1]
    boxes = []
    for node in scene.nodes:
        (across, up), (width, height) = layout.centres[node.key], size_of(node)
        boxes.append((across - width / 2, across + width / 2, up - height / 2, up + height / 2))
    for one, two in itertools.combinations(boxes, 2):
        assert one[1] <= two[0] or two[1] <= one[0] or one[3] <= two[2] or two[3] <= one[2]
    assert sum(node.kind is Node.QUEUE for node in scene.nodes) == 32


def test_names_are_only_names() -> None:
    """A name that looks like markup, a formula or a command of the layout stays text."""
    names = "<script>alert(1)</script>", '"]; evil [label="', "$\\frac{1}{0}$", "a\\nb\\", "&amp;"
    net = Network()
    for name in names:
        net.queue(name, 2)
        net.event(name, "service", 1, name, [])
    picture = style.saved(drawn(net, with_legend=True), "svg")
    assert [counted(svg_ids(picture), kind) for kind in ("queue", "arrow")] == [len(names)] * 2
    tags = [each.tag.rpartition("}")[2] for each in xml.etree.ElementTree.fromstring(picture).iter()]
    assert "g" in tags and "script" not in tags


@EACH
def test_the_gallery_shows_the_picture(path: Path) -> None:
    """The gallery's page shows the picture of each network, and it is what is drawn of the file."""
    name = f"network-{path.stem}.svg"
    assert f"](../docs/pictures/{name})" in (TOP / "examples/README.md").read_text()
    shown = (TOP / "docs/pictures" / name).read_bytes()
    made = style.saved(draw_network(NetworkPicture(Network.read(path), path.stem)), "svg")
    versions = {match_in(r"Matplotlib v[\d.]+", data.decode())[0] for data in (shown, made)}
    _, _, graphviz = ended(["dot", "-V"])
    if len(versions) > 1 or GRAPHVIZ not in graphviz:
        pytest.skip(f"the picture was drawn by other versions than {versions} and {graphviz}")
    assert made == shown


@EACH
def test_the_gallery_has_a_line_and_means(path: Path) -> None:
    """The gallery's page has each network below a topic, with a line on what it shows, and the measured mean of each
    of its queues."""
    page = (TOP / "examples/README.md").read_text()
    found = match_in(rf"^### {path.stem}\n\n(.*?)\n\n!\[", page, re.M | re.S)
    topics = re.findall(r"^## (.*)$", page[: found.start()], re.M)
    assert len(topics) > 1 and topics[-1] != "Pictures"
    assert re.match(r"[A-Z][^.]{20,}\. ", found[1])
    for queue in tomllib.loads(path.read_text())["queue"]:
        assert re.search(rf"`{re.escape(queue['name'])}`\s+[\d.]+<!--=", found[1]), queue["name"]


def test_a_notebook_shows_the_picture() -> None:
    """A notebook shows a network as its picture, and one that cannot be drawn yet as Python does."""
    ids = svg_ids(Network.read(example("overflow"))._repr_svg_() or "")
    assert sum(each.startswith("queue-") for each in ids) == 2
    assert Network().queue("desk", 3)._repr_svg_() is not None
    unfinished = Network().event("serve", "service", 1, "nowhere", [])
    assert Network()._repr_svg_() is None and unfinished._repr_svg_() is None


def test_tables_are_drawn_on_demand() -> None:
    """The tables of a choice by an index stand below the picture where they are asked for."""
    net = Network.read(example("shortest-queue"))
    with_tables, without = ([text for text, _ in texts_of(drawn(net, with_tables=each))] for each in (True, False))
    assert "come, index of left: 0, 1, 2, 3, 4" in with_tables
    assert not [text for text in without if "index of" in text]


@pytest.mark.slow
def test_the_command_draws_each_format(tool: Tool, tmp_path: Path) -> None:
    """The command draws SVG, PNG and PDF, the same bytes for the same network."""
    net = example("overflow")
    for form, head in (("svg", b"<?xml"), ("png", b"\x89PNG"), ("pdf", b"%PDF")):
        for name in (f"one.{form}", f"two.{form}"):
            assert tool("psi-plot", "network", net, "--legend", "-o", name) == (0, "", "")
        data = (tmp_path / f"one.{form}").read_bytes()
        assert data.startswith(head) and data == (tmp_path / f"two.{form}").read_bytes()


def test_what_psi_refuses_is_not_drawn(tool: Tool, tmp_path: Path) -> None:
    """A network that psi refuses is refused by name, and nothing is written."""
    (tmp_path / "bad.toml").write_text("version = 1\n[[queue]]\nname = 'a'\ncapacity = 0\n")
    status, out, err = tool("psi-plot", "network", "bad.toml", "-o", "bad.svg")
    assert status == 2 and out == "" and "bad.toml" in err and err.count("\n") == 1
    assert not (tmp_path / "bad.svg").exists()


def test_options_of_another_picture_are_refused(tool: Tool) -> None:
    """--legend belongs to networks alone."""
    status, _, err = tool("psi-plot", "exact", "none", "--legend", "-o", "x.svg")
    assert status == 2 and "--legend" in err


def test_without_graphviz_one_line_says_so(tmp_path: Path) -> None:
    """Where `dot` is missing, one line names the package, and the status is 1."""
    call = "from psi_tools.plot.network_layout import laid_out; from psi_tools.plot.network_scene import Scene\n"
    call += "from psi_tools.errors import PsiError\ntry:\n    laid_out(Scene([], []))\n"
    call += "except PsiError as error:\n    print(error.status, error)"
    place = {**os.environ, "PATH": str(tmp_path), "PYTHONPATH": str(TOP / "python")}
    status, out, _ = ended([sys.executable, "-c", call], env=place)
    assert (status, out) == (0, "1 a picture of a network needs graphviz: tools/setup graphviz\n")
    assert Path(sys.executable).is_absolute()
