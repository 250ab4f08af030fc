"""The page of psi-page: one HTML file in which the runs of a sample are stepped through."""

import base64
import dataclasses
import hashlib
import html
import json
import pathlib
import re
import xml.etree.ElementTree
from typing import Any

from psi_tools import check_log
from psi_tools.errors import printable
from psi_tools.model.networks import Network, Table
from psi_tools.plot.past import Follower, Region

TEMPLATES = pathlib.Path(__file__).resolve().parent / "page_files"
SVG = "{http://www.w3.org/2000/svg}"
PLACE = re.compile(r"\{\{(\w+)\}\}")


@dataclasses.dataclass(frozen=True)
class Runs:
    """All runs of a sample: `regions` has those of each run from its begin to time zero, shortest run first.

    `words` and `numbers` have the random word and the number of the event of each step, the step just before time
    zero first.
    """

    net: Network
    title: str
    seed: int
    stream: int
    words: list[int]
    numbers: list[int]
    regions: list[list[Region]]


def runs_of(net: Network, log: bytes, title: str) -> Runs:
    """The runs of an accepted log: those that fail are followed by the plain follower, and the last one is the log."""
    _, seed, stream, horizon, first, *steps, _ = check_log.read(log)
    follower = Follower(net)
    random = [check_log.block(seed, stream, place // 16)[place % 16] for place in range(horizon)]
    numbers = [follower.net.event_of(seed, stream, time) for time in range(1, horizon + 1)]
    lengths = [1 << power for power in range((horizon - 1).bit_length())]
    regions = [[*follower.regions(numbers[length - 1 :: -1])] for length in lengths]
    regions.append([first, *(step[2] for step in steps)])
    return Runs(net, title, seed, stream, random, numbers, regions)


def change_of(before: Region | None, after: Region) -> Any:
    """How a region differs from the one before it: 0 if it does not, the queues of a box whose ends change, each as
    [queue, least, greatest], or the whole region."""
    if not isinstance(after, check_log.Box):
        same = not isinstance(before, check_log.Box) and before == after
        return 0 if same else {"set": sorted(after)}
    if not isinstance(before, check_log.Box):
        return {"box": [list(after.low), list(after.high)]}
    old, new = zip(before.low, before.high), zip(after.low, after.high)
    return [[queue, *ends] for queue, (ends, past) in enumerate(zip(new, old)) if ends != past] or 0


def data_of(runs: Runs) -> dict[str, Any]:
    """What the page's script is given."""
    from psi_tools.plot.network_scene import scene_of

    net, plain = runs.net, runs.net.followed()
    entries: list[tuple[int | None, Table]] = [*enumerate(net.table["event"]), (None, {"name": "idle", "kind": "idle"})]
    servers = ((place, entry) for place, entry in entries for _ in range(net.servers_of(entry)))
    ends = [0, *plain.totals, plain.modulus]
    events = [
        {"name": entry["name"], "from": begin, "end": end, "place": place, "rate": entry.get("rate")}
        for (place, entry), begin, end in zip(servers, ends, ends[1:])
    ]
    whole = {"box": [[0] * len(plain.caps), plain.caps]}
    return {
        "seed": str(runs.seed),
        "stream": str(runs.stream),
        "events": events,
        "modulus": plain.modulus,
        "queues": [{"name": name, "capacity": capacity} for name, capacity in zip(net.queues, net.capacities)],
        "arrows": [arrow.event for arrow in scene_of(net).arrows],
        "words": runs.words,
        "numbers": runs.numbers,
        "runs": [
            {
                "begin": whole if isinstance(run[0], check_log.Box) else change_of(None, run[0]),
                "steps": [change_of(*pair) for pair in zip(run, run[1:])],
            }
            for run in runs.regions
        ],
    }


def drawing_of(net: Network) -> str:
    """The network's picture as an element of a page: shapes alone, without comments and metadata."""
    from psi_tools.plot import style
    from psi_tools.plot.draw_network import draw_network
    from psi_tools.plot.network_scene import NetworkPicture

    xml.etree.ElementTree.register_namespace("", "http://www.w3.org/2000/svg")
    xml.etree.ElementTree.register_namespace("xlink", "http://www.w3.org/1999/xlink")
    root = xml.etree.ElementTree.fromstring(style.saved(draw_network(NetworkPicture(net, "")), "svg"))
    for child in root.findall(f"{SVG}metadata"):
        root.remove(child)
    width = float(root.get("width", "").removesuffix("pt"))
    root.attrib |= {"id": "picture", "role": "img", "aria-labelledby": "drawn", "style": f"--paper: {width:.0f}pt"}
    del root.attrib["width"], root.attrib["height"]
    return xml.etree.ElementTree.tostring(root, encoding="unicode")


def as_script(value: Any) -> str:
    """A value as JSON that cannot end the element of a page in which it stands."""
    text = json.dumps(value, separators=(",", ":"))
    return text.replace("&", "\\u0026").replace("<", "\\u003c").replace(">", "\\u003e")


def page_of(runs: Runs) -> str:
    """The whole page. Its policy lets the browser run the page's own script, by its hash, and load nothing."""
    style, script, page = ((TEMPLATES / f"page.{kind}").read_text() for kind in ("css", "js", "html"))
    digest = base64.b64encode(hashlib.sha256(script.encode()).digest()).decode()
    parts = {
        "TITLE": html.escape(printable(runs.title)),
        "STYLE": style,
        "SCRIPT": script,
        "DIGEST": digest,
        "DRAWING": drawing_of(runs.net),
        "DATA": as_script(data_of(runs)),
    }
    return PLACE.sub(lambda found: parts[found[1]], page)
