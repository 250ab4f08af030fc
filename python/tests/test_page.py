"""psi-page: the page shows what the log has, step by step, in a real browser where there is one; and refuses what
`psi replay` does not accept."""

import base64
import hashlib
import html.parser
import json
import os
import re
import shutil
import tomllib
from collections.abc import Callable, Iterator
from pathlib import Path
from typing import TYPE_CHECKING, Any

import numpy
import pytest
from conftest import Tool, ended, example, printed_by
from oracle.log_regions import regions_of as regions_of_text
from oracle.plain_network import Network as Plain

from psi_tools.cli.page import MOST_LOG
from psi_tools.plot import page
from psi_tools.check_log import block
from psi_tools.model.networks import Network
from psi_tools.plot.past import past_of

if TYPE_CHECKING:
    from selenium.webdriver.chrome.webdriver import WebDriver

# The page of a network and its log, what opens a page, and what a browser shows it as.
Pages = Callable[..., tuple[str, str]]
Open = Callable[[str], None]
Emulate = Callable[..., None]
NETS = (
    "first",
    "tandem-blocking",
    "overflow",
    "reset",
    "negative-customers",
    "batch-arrivals",
    "breakdowns",
    "longest-queue-split",
    "consolidation",
    "hyperexponential-service",
)
HOSTILE = (
    "</script><script>alert(1)</script>",
    "<img src=x onerror=alert(1)>",
    '"]]>--><svg onload="alert(1)">{{DATA}}',
)
# Steps on through the chosen run by its button, and returns what the page shows at each time.
WALK = """
const [run] = arguments, at = (id) => document.getElementById(id), rows = [];
at("run").value = run;
at("run").dispatchEvent(new Event("change"));
for (;;) {
  rows.push({
    customers: [...at("queues").rows].map((row) => row.cells[1].textContent),
    drawn: [...document.querySelectorAll(".gauge text")].map((text) => text.textContent),
    size: at("size").textContent, event: at("event").textContent, word: at("word").textContent,
    fires: [...document.querySelectorAll(".fires")].map((arrow) => arrow.id),
    checks: [...at("checks").children].map((item) => item.textContent),
  });
  const before = at("time").value;
  at("next").click();
  if (at("time").value === before) return rows;
}
"""


PRESS = "document.body.dispatchEvent(new KeyboardEvent('keydown', {key: arguments[0], bubbles: true}))"
# The least contrast of a text with what is behind it, by the luminances that WCAG defines.
CONTRAST = """
const light = (colour) => {
  const parts = colour.match(/[\\d.]+/g).slice(0, 3).map((part) => part / 255)
    .map((part) => (part <= 0.04045 ? part / 12.92 : ((part + 0.055) / 1.055) ** 2.4));
  return 0.2126 * parts[0] + 0.7152 * parts[1] + 0.0722 * parts[2];
};
const behind = (element) => {
  const colour = getComputedStyle(element).backgroundColor;
  return colour.endsWith(", 0)") && element.parentElement ? behind(element.parentElement) : colour;
};
const found = [...document.querySelectorAll("h1, h2, p, li, th, td, kbd, label, summary, button, #chart text")].map(
  (element) => {
    const style = getComputedStyle(element), text = element.matches("text") ? style.fill : style.color;
    const [one, two] = [light(text), light(behind(element))];
    return (Math.max(one, two) + 0.05) / (Math.min(one, two) + 0.05);
  });
return Math.min(...found);
"""


class Elements(html.parser.HTMLParser):
    """The names of the elements of a page, and the text of each script."""

    def __init__(self, text: str) -> None:
        super().__init__()
        self.found: list[tuple[str, dict[str, str]]] = []
        self.scripts: list[str] = []
        self.feed(text)

    def handle_starttag(self, tag: str, attrs: list[tuple[str, str | None]]) -> None:
        self.found.append((tag, {name: value or "" for name, value in attrs}))
        if tag == "script":
            self.scripts.append("")

    def handle_data(self, data: str) -> None:
        if self.cdata_elem == "script":
            self.scripts[-1] += data


def log_of(program: str, name: str, stream: int = 0) -> bytes:
    """The log of a sample of a network of the gallery."""
    return printed_by(program, "sample", example(name), 0, stream, "log").encode()


@pytest.fixture(scope="module")
def pages(program: str) -> Pages:
    """The page of a network of the gallery, and its log; each is made once."""
    made = {}

    def page_of(name: str, stream: int = 0) -> tuple[str, str]:
        if (name, stream) not in made:
            log, net = log_of(program, name, stream), Network.read(example(name))
            made[name, stream] = page.page_of(page.runs_of(net, log, name)), log.decode()
        return made[name, stream]

    return page_of


@pytest.fixture(scope="module")
def browser() -> Iterator["WebDriver"]:
    """Headless Chromium."""
    webdriver = pytest.importorskip("selenium.webdriver", reason="without python3-selenium no browser tries the page")
    if not shutil.which("chromium") or not shutil.which("chromedriver"):
        pytest.skip("without chromium and chromium-driver no browser tries the page")
    from selenium.webdriver.chrome.service import Service

    options = webdriver.ChromeOptions()
    options.binary_location = shutil.which("chromium")
    for word in "headless=new no-sandbox disable-gpu disable-dev-shm-usage window-size=1280,1000".split():
        options.add_argument(f"--{word}")
    options.set_capability("goog:loggingPrefs", {"browser": "ALL"})
    driver = webdriver.Chrome(service=Service(shutil.which("chromedriver")), options=options)
    driver.set_script_timeout(120)
    yield driver
    driver.quit()


@pytest.fixture
def opened(browser: "WebDriver", tmp_path: Path) -> Open:
    """Opens a page from disk in the browser."""

    def open_page(text: str) -> None:
        (tmp_path / "page.html").write_text(text)
        browser.get((tmp_path / "page.html").as_uri())

    return open_page


def data_of(text: str) -> Any:
    """The data of a page."""
    return json.loads(Elements(text).scripts[0])


def interval(low: int, high: int) -> str:
    return f"{low:,}" if low == high else f"{low:,} to {high:,}"


@pytest.mark.parametrize("name", NETS)
def test_the_page_shows_the_log(browser: "WebDriver", opened: Open, pages: Pages, program: str, name: str) -> None:
    """Each step of each run shows the region that the log has, or the plain follower of a run that fails, in the
    table and in the picture; the event and its random word; and nothing is wrong on the console."""
    text, log = pages(name)
    opened(text)
    past = past_of(program, str(example(name)), 0, 0)
    regions = [[*zip(run.low, run.high, run.counts)] for run in past.runs[:-1]] + [
        [(low, high, size) for low, high, size, _ in regions_of_text(log)]
    ]
    for run, wanted in enumerate(regions):
        rows = browser.execute_script(WALK, run)
        assert len(rows) == len(wanted)
        for row, (low, high, size) in zip(rows, wanted):
            assert row["customers"] == row["drawn"] == [*map(interval, low, high)]
            assert row["size"] == f"{size:,} state{'s' * (size != 1)} left"
    hold_events(rows, name, log)
    assert browser.get_log("browser") == []


def hold_events(rows: list[dict[str, Any]], name: str, log: str) -> None:
    """The last run shows the events of the log, by their names, the random words that pick them, the arrows that
    they have, and what replay checks."""
    plain = Plain(tomllib.loads(example(name).read_text()))
    numbers = [int(line.split()[2]) for line in log.split("\n")[6:-2]]
    assert len(rows) == len(numbers) + 1
    for place, (row, number) in enumerate(zip(rows[1:], numbers)):
        time = len(numbers) - place
        word = block(0, 0, (time - 1) // 16)[(time - 1) % 16]
        event = plain.events[number] if number < len(plain.events) else None
        assert row["word"].startswith(
            f"Random word {word:,}; modulo {plain.modulus:,} it is {word % plain.modulus:,}, "
        )
        is_idle = row["event"] == "Event: idle: nothing happens"
        assert is_idle == (event is None) == (row["fires"] == [])
        assert f"step {time:,} before time zero" in row["checks"][0]
    assert rows[-1]["checks"][-1].endswith(log.split("\n")[-2].removeprefix("end ") + ".")


def hostile_page(pages: Pages, name: str) -> str:
    """The page of a network whose queue has this name, and the page too."""
    log = pages("first")[1].encode()
    table = tomllib.loads(example("first").read_text().replace('"a"', json.dumps(name)))
    net = Network()
    net.table |= {key: table[key] for key in ("queue", "event")}
    return page.page_of(page.runs_of(net, log, name))


@pytest.mark.parametrize("name", HOSTILE)
def test_names_are_only_text(browser: "WebDriver", opened: Open, pages: Pages, name: str) -> None:
    """A name or a title that looks like markup is shown as text, and runs nothing."""
    opened(hostile_page(pages, name))
    assert browser.find_element("css selector", "h1").text == name
    assert browser.find_element("css selector", "#queues td").text == name
    assert len(browser.find_elements("css selector", "script")) == 2
    assert not browser.find_elements("css selector", "img, svg[onload]")
    assert browser.get_log("browser") == []


def test_answers_are_hidden_until_a_key_is_pressed(browser: "WebDriver", opened: Open, pages: Pages) -> None:
    """While answers are hidden a step shows its event and the region before it; Enter shows the region."""
    text, log = pages("tandem-blocking")
    opened(text)
    regions = [*regions_of_text(log)]
    shown = "return [...document.querySelectorAll('.gauge text')].map((text) => text.textContent)"
    browser.execute_script(PRESS, "h")
    for place in range(1, 6):
        browser.execute_script(PRESS, "ArrowRight")
        before = [*map(interval, *regions[place - 1][:2])]
        assert browser.execute_script(shown) == [f"{one} → ?" for one in before]
        assert browser.find_element("id", "question").is_displayed()
        browser.execute_script(PRESS, "Enter")
        assert browser.execute_script(shown) == [*map(interval, *regions[place][:2])]
        assert not browser.find_element("id", "question").is_displayed()
    for key, time in (("End", len(regions) - 1), ("Home", 0), ("PageDown", 10), ("PageUp", 0)):
        browser.execute_script(PRESS, key)
        assert browser.execute_script("return Number(document.getElementById('time').value)") == time


def test_all_can_be_done_by_keys(browser: "WebDriver", opened: Open, pages: Pages) -> None:
    """Tab leads to each control in its order, and keys that are typed step, choose the run and turn modes on."""
    from selenium.webdriver import ActionChains, Keys

    opened(pages("tandem-blocking")[0])
    reached = []
    for _ in range(11):
        ActionChains(browser).send_keys(Keys.TAB).perform()
        reached.append(browser.switch_to.active_element.get_attribute("id"))
    assert reached[:10] == ["run", "first", "back", "play", "next", "last", "speed", "hide", "large", "time"]
    opened(pages("tandem-blocking")[0])
    now = "return [Number(document.getElementById('run').value), Number(document.getElementById('time').value)]"
    last = browser.execute_script(now)[0]
    for keys, expected in (
        (Keys.ARROW_RIGHT * 3, [last, 3]),
        (Keys.ARROW_LEFT, [last, 2]),
        ("[", [last - 1, 0]),
        (Keys.END, [last - 1, 1 << last - 1]),
        ("]", [last, 0]),
    ):
        ActionChains(browser).send_keys(keys).perform()
        assert browser.execute_script(now) == expected
    for key, button in (("h", "hide"), ("l", "large")):
        for is_on in ("true", "false"):
            ActionChains(browser).send_keys(key).perform()
            assert browser.find_element("id", button).get_attribute("aria-pressed") == is_on
    ActionChains(browser).send_keys(" ").perform()
    assert browser.find_element("id", "play").text == "Pause"
    ActionChains(browser).send_keys(" ").perform()
    assert browser.find_element("id", "play").text == "Play"


@pytest.fixture
def emulated(browser: "WebDriver") -> Iterator[Emulate]:
    """Makes the browser show a page as on a phone, in the dark or on paper; in the end it is as it was."""

    def emulate(width: int | None = None, **media: str) -> None:
        if width:
            size = {"width": width, "height": 800, "deviceScaleFactor": 1, "mobile": True}
            browser.execute_cdp_cmd("Emulation.setDeviceMetricsOverride", size)
        colours = [{"name": "prefers-color-scheme", "value": media.get("scheme", "light")}]
        browser.execute_cdp_cmd("Emulation.setEmulatedMedia", {"media": media.get("medium", ""), "features": colours})

    yield emulate
    browser.execute_cdp_cmd("Emulation.clearDeviceMetricsOverride", {})
    browser.execute_cdp_cmd("Emulation.setEmulatedMedia", {"media": "", "features": []})


@pytest.mark.parametrize("scheme, medium", [("light", ""), ("dark", ""), ("dark", "print")])
def test_texts_stand_out(
    browser: "WebDriver", opened: Open, pages: Pages, emulated: Emulate, scheme: str, medium: str
) -> None:
    """Each text has a contrast of 4.5 at least with what is behind it, in light and in dark colours and on paper, where
    the background is white; what is certain and what is possible differ by more than their colours."""
    opened(pages("tandem-blocking")[0])
    emulated(scheme=scheme, medium=medium)
    for key in ("ArrowRight", "h", "ArrowRight"):
        browser.execute_script(PRESS, key)
    assert browser.execute_script(CONTRAST) >= 4.5
    is_dark = scheme == "dark" and medium == ""
    paper = browser.execute_script("return getComputedStyle(document.body).backgroundColor")
    assert (paper == "rgb(255, 255, 255)") == (not is_dark)
    fills = browser.execute_script(
        "return [...document.querySelectorAll('.gauge')].map((one) => [...one.querySelectorAll('rect')]"
        ".map((part) => part.getAttribute('fill')))"
    )
    assert fills and all(certain.startswith("#") and possible == "url(#hatch)" for certain, possible in fills)


@pytest.mark.parametrize("name", ["tandem-blocking", "hyperexponential-service"])
def test_a_phone_shows_all(browser: "WebDriver", opened: Open, pages: Pages, emulated: Emulate, name: str) -> None:
    """On a screen of 390 dots the page is no wider than the screen, the numbers in the queues are not smaller than nine
    dots, and the arrow that fires is brought to sight."""
    emulated(width=390)
    opened(pages(name)[0])
    for _ in range(24):
        browser.execute_script(PRESS, "ArrowRight")
        assert browser.execute_script("return document.documentElement.scrollWidth") <= 390
        heights = (
            "return [...document.querySelectorAll('.gauge text')].map((one) => one.getBoundingClientRect().height)"
        )
        assert min(browser.execute_script(heights)) >= 9
        middles = browser.execute_script(
            "return [...document.querySelectorAll('.fires')].slice(0, 1).map((one) => one.getBoundingClientRect())"
            ".map((box) => (box.left + box.right) / 2)"
        )
        assert all(0 <= middle <= 390 for middle in middles)


# The browser has to print within ten seconds, which it may not on a busy machine.
@pytest.mark.quiet
@pytest.mark.parametrize("name", ["first", "tandem-blocking", "longest-queue-split", "hyperexponential-service"])
def test_the_page_prints(
    browser: "WebDriver", opened: Open, pages: Pages, tmp_path: Path, emulated: Emulate, name: str
) -> None:
    """On paper the network, the time line, the step and the states that are left stand on one white page, within its
    margins; the controls and the keys do not."""
    for program in ("pdftotext", "pdftoppm"):
        if not shutil.which(program):
            pytest.skip("without poppler-utils nobody reads what was printed")
    opened(pages(name)[0])
    emulated(scheme="dark")
    for _ in range(4):
        browser.execute_script(PRESS, "ArrowRight")
    shown = [browser.find_element("id", each).text for each in ("about", "now", "event", "word", "size")]
    shown += [each.text for each in browser.find_elements("css selector", "h1, #checks li, #queues td")]
    shown += [browser.execute_script("return document.getElementById('states').textContent")]
    (tmp_path / "page.pdf").write_bytes(base64.b64decode(browser.print_page()))
    read = printed_by("pdftotext", tmp_path / "page.pdf", "-")
    printed = "".join(read.split())
    assert read.count("\f") == 1
    assert [each for each in shown if "".join(each.split()) not in printed] == []
    length = browser.execute_script("return document.getElementById('time').max")
    assert f"Therunof{length}steps:allstateshavecoalesced." in printed
    assert "Hide answers" not in read and "Page Down" not in read and "Steps a second" not in read
    ink = drawn_on(tmp_path / "page.pdf") < 250
    border = numpy.ones_like(ink)
    border[20:-20, 20:-20] = False
    assert not ink[border].any() and 0.005 < ink.mean() < 0.2


def drawn_on(pdf: Path) -> numpy.ndarray[Any, Any]:
    """How light each dot of a printed page is, at 50 dots an inch."""
    data: Any = ended(["pdftoppm", "-gray", "-r", "50", "-singlefile", pdf], text=False)[1]
    kind, size, _, dots = data.split(b"\n", 3)
    width, height = map(int, size.split())
    assert kind == b"P5" and len(dots) == width * height
    return numpy.frombuffer(dots, dtype=numpy.uint8).reshape(height, width)


@pytest.mark.quiet
def test_a_long_log_opens_soon(browser: "WebDriver", opened: Open, pages: Pages, program: str) -> None:
    """A page of 4,096 steps opens within a second, and takes half a second of one processor at most. On a
    busy machine only the processor's time is held against it."""
    net = example("longest-queue")
    stream = next(
        stream for stream in range(200) if printed_by(program, "sample", net, 0, stream).startswith("met 4096\n")
    )
    text, log = pages("longest-queue", stream)
    browser.execute_cdp_cmd("Performance.enable", {"timeDomain": "threadTicks"})
    opened(text)
    found = browser.execute_cdp_cmd("Performance.getMetrics", {})["metrics"]
    browser.execute_cdp_cmd("Performance.disable", {})
    assert len(text) < 200_000 + 3 * len(log)
    assert 0 < next(one["value"] for one in found if one["name"] == "TaskDuration") < 0.5
    loaded = browser.execute_script("return performance.getEntriesByType('navigation')[0].domComplete")
    assert loaded < 1_000 or os.getloadavg()[0] > len(os.sched_getaffinity(0))


@pytest.mark.parametrize("name", ["first", "tandem-blocking", "longest-queue-split"])
def test_the_data_are_the_log(pages: Pages, name: str) -> None:
    """The last run of the data is the log, and the plain follower's run of that length is the same."""
    text, log = pages(name)
    data = data_of(text)
    low, high = data["runs"][-1]["begin"].get("box", ([], []))
    found = []
    for change in [data["runs"][-1]["begin"], *data["runs"][-1]["steps"]]:
        if isinstance(change, dict) and "set" in change:
            low, high = [[*map(end, zip(*change["set"]))] for end in (min, max)]
        elif isinstance(change, dict):
            low, high = change["box"]
        for queue, *ends in change if isinstance(change, list) else ():
            low, high = [*low], [*high]
            low[queue], high[queue] = ends
        found.append((low, high))
    assert found == [(low, high) for low, high, *_ in regions_of_text(log)]
    assert [len(run["steps"]) for run in data["runs"]] == [1 << power for power in range(len(data["runs"]))]


def test_the_page_needs_nothing_else(pages: Pages) -> None:
    """The page has its own script alone, whose hash its policy names, and no address but those of namespaces."""
    text, _ = pages("tandem-blocking")
    found = Elements(text)
    own = base64.b64encode(hashlib.sha256(found.scripts[1].encode()).digest()).decode()
    policy = next(attrs["content"] for tag, attrs in found.found if "http-equiv" in attrs)
    assert len(found.scripts) == 2 and f"script-src 'sha256-{own}'" in policy and "default-src 'none'" in policy
    addresses = {address for address in re.findall(r"https?://[^\"'\s)]+", text)}
    assert {address.split("/")[2] for address in addresses} == {"www.w3.org"}
    assert not [attrs for _, attrs in found.found if attrs.get("src") or attrs.get("href", "#")[:1] not in "#d"]
    assert len(text) < 150_000


@pytest.mark.parametrize("name", HOSTILE)
def test_hostile_names_are_no_elements(pages: Pages, name: str) -> None:
    """As the test in a browser, by Python's parser: a hostile name adds no element."""
    found = Elements(hostile_page(pages, name))
    tags = [tag for tag, _ in found.found]
    assert tags.count("script") == 2 and "img" not in tags and tags.count("svg") == 2
    assert json.loads(found.scripts[0])["queues"][0]["name"] == name


def test_the_command_writes_a_page(tool: Tool, tmp_path: Path, program: str) -> None:
    """The page of a sample, and that of its log, are the same bytes."""
    (tmp_path / "own.log").write_bytes(log_of(program, "overflow"))
    assert tool("psi-page", example("overflow"), "0", "0", "-o", "one.html") == (0, "", "")
    assert tool("psi-page", example("overflow"), "--log", "own.log", "-o", "two.html") == (0, "", "")
    text = (tmp_path / "one.html").read_text()
    assert text.startswith("<!DOCTYPE html>") and text == (tmp_path / "two.html").read_text()


def test_what_replay_does_not_accept_is_refused(tool: Tool, tmp_path: Path, program: str) -> None:
    """A changed log, one that is too long, a sample that is not coupled and wrong arguments are refused by one line,
    and no page is written."""
    log = log_of(program, "overflow")
    (tmp_path / "changed.log").write_bytes(log.replace(b"seed 0", b"seed 1"))
    with open(tmp_path / "long.log", "wb") as file:
        file.write(log)
        file.truncate(MOST_LOG + 1)
    net, short = example("overflow"), example("short-past")
    for words, status, printed in (
        ((net, "--log", "changed.log"), 4, "log rejected 3"),
        ((net, "--log", "long.log"), 2, "20,000,000 bytes"),
        ((net, "--log", "absent.log"), 6, "can't be read"),
        ((short, "0", "0"), 1, "not coupled within 64"),
        ((net, "0"), 2, "SEED and STREAM"),
        ((net, "0", "0", "--log", "changed.log"), 2, "--log"),
    ):
        found, out, err = tool("psi-page", *words, "-o", "page.html")
        assert (found, out, err.count("\n")) == (status, "", 1) and printed in err
    assert not (tmp_path / "page.html").exists()
