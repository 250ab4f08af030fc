"""What the guides say of commands beside their blocks and their marked numbers: README's table of commands,
the table of statuses in docs/LIMITS.md, and what two commands have in common; and the notebook of docs/.
"""

import os
import pathlib
import re
import tomllib

import pytest

from generate import notebook
from tests.documents import Clone, Document
from tests.gallery import BLOCK
from tests.support import EXAMPLES, TOP, Expectations, printed_by, report_of

TANDEM, FIRST = "examples/tandem-blocking.toml", "examples/first.toml"
# What stands for a word of README's table of commands.
WORDS = {
    "NET": TANDEM, "SEED": "0", "STREAM": "0", "FIRST": "0", "COUNT": "9", "NUMBER": "5",
    "NAME": "parts", "H": "8", "LOG": "tandem-0.log", "TOTAL": "6",
}  # fmt: skip
# A call for each status of the table in LIMITS, as a command of the shell; what they need is made first.
MAKE = r"""
printf 'version = 3\n' >bad.toml
printf 'none\n' >bad.log
./psi sample examples/tandem-blocking.toml 0 0 log >tandem-0.log
sed 's/^seed 0$/seed 1/' tandem-0.log >other.log
printf 'version = 1\nsplit = 4096\n[[queue]]\nname = "a"\ncapacity = 4095\n[[event]]\n' >long.toml
printf 'name = "in"\nkind = "arrival"\nrate = 1\nto = ["a"]\n' >>long.toml
{ printf 'version = 1\n'; for name in a b; do
    printf '[[queue]]\nname = "%s"\ncapacity = 256\n' $name
done; printf '[[event]]\nname = "in"\nkind = "arrival"\nrate = 1\nto = ["a"]\n'; } >great.toml
{ printf 'a = ['; yes '{},' | head -n 260000 | tr -d '\n'; printf ']'; } >nested.toml
"""
CALLS = {
    0: ["./psi check examples/first.toml", "./psi sample examples/first.toml 0 0",
        "./psi report examples/short-past.toml 0 0 10"],
    1: ["./psi sample examples/central-server.toml 0 0", "./psi exact examples/central-server.toml 0 0 4"],
    2: ["./psi none", "./psi sample examples/first.toml 0 01"],
    3: ["./psi check bad.toml"],
    4: ["./psi replay examples/tandem-blocking.toml bad.log",
        "./psi replay examples/tandem-blocking.toml other.log"],
    5: ["./psi sample long.toml 0 0 log"],
    6: ["./psi check absent.toml", "./psi replay examples/first.toml absent.log"],
    7: ["./psi check examples/first.toml >/dev/full"],
    8: ["ulimit -v 8000; exec crates/psi/out/psi check nested.toml"],
    9: ["./psi reward examples/first.toml 0 0 none"],
    10: ["./psi exact great.toml 0 0 1"],
    11: ["./psi closed examples/first.toml 0 0 1"],
    12: ["./psi closed examples/central-server.toml 0 0 19"],
    13: [r'''./psi check "$(printf '\377')"'''],
}  # fmt: skip


@pytest.fixture(scope="module")
def clone(program: str, tmp_path_factory: pytest.TempPathFactory) -> Clone:
    """A fresh clone of what is committed, with files for the calls."""
    made = Clone(program, tmp_path_factory.mktemp("guides"))
    assert made.execute(MAKE)[0] == 0
    return made


def text_of(name: str) -> str:
    """The text of a page."""
    return (TOP / name).read_text()


def reported(clone: Clone, words: str) -> dict[tuple[str, str], int]:
    """The values of a report by item and name."""
    status, out, error = clone.execute(f"./psi report {words}")
    assert status == 0, error
    return report_of(out)


def test_the_first_screen() -> None:
    """README says at once what PSI does, and shows a terminal and a picture."""
    text = re.sub(r"^<!--.*?^-->\n", "", text_of("README.md"), flags=re.M | re.S)
    first = "\n".join(text.splitlines()[:30])
    terminal = re.search(r"^```\n(\$ (?:.*\n)*?)```$", first, re.M)
    assert len(text.splitlines()) <= 150 and "stationary distribution" in " ".join(first.split())
    assert terminal and terminal[1].count("\n") >= 6
    assert re.search(r"^!\[[^\]]+\]\([^)]+\.svg\)$", first, re.M)


def test_commands(expect: Expectations, clone: Clone) -> None:
    """README's table of commands: each is one, takes such words, and is in the help."""
    rows = re.findall(r"^\| `\./psi ([^`]*)` \| \w+", text_of("README.md"), re.M)
    expect(len(rows) == 10 and len({row.split()[0] for row in rows}) == 9, f"other commands: {rows}")
    help_text = clone.execute("./psi --help")[1]
    for row in rows:
        name, *words = [WORDS.get(word, word) for word in row.split()]
        if name == "closed":
            words[0] = "examples/central-server.toml"
        status, out, error = clone.execute(f"./psi {name} {' '.join(words)}")
        expect(status == 0 and out, f"status {status} of ./psi {row}: {error}")
        expect(re.search(rf"^  {name} ", help_text, re.M), f"the help has no {name}")
    status, out, _ = clone.execute("./psi help sample")
    expect((status, out.splitlines()[0]) == (0, "Usage: psi sample NET SEED STREAM"), f"help sample: {out}")
    expect(clone.execute("./psi --build")[:2] == (0, ""), "./psi --build says something")


def test_statuses(expect: Expectations, clone: Clone) -> None:
    """The table of statuses in LIMITS: each comes of its call, and a line of its form with it."""
    rows = re.findall(r"^\| (\d+) \| [^|\n]* \| ((?:`[^`]*`(?:, )?)*) ?\|$", text_of("docs/LIMITS.md"), re.M)
    expect([int(number) for number, _ in rows] == [*CALLS], f"other statuses: {rows}")
    for number, lines in rows:
        forms = re.findall("`([^`]*)`", lines)
        patterns = [re.sub(r"\b(?:[A-Z]+|(?<=line )L)\b", "[^ ]+", form) for form in forms] or [""]
        ended = [clone.execute(call) for call in CALLS[int(number)]]
        errors, statuses = [error.strip() for _, _, error in ended], {status for status, _, _ in ended}
        expect(statuses == {int(number)}, f"the status {number} is {statuses}: {errors}")
        for pattern in patterns:
            comes = any(re.fullmatch(pattern, error) for error in errors)
            expect(comes, f"status {number}: no line is of the form {pattern}: {errors}")
        for error in errors:
            shown = any(re.fullmatch(pattern, error) for pattern in patterns)
            expect(shown, f"status {number}: another line comes: {error}")


def test_words_that_offend(clone: Clone) -> None:
    ended = [clone.execute(call)[2].split()[-1] for call in CALLS[2]]
    assert ended == ["1", "4"]


def test_bounds_of_memory_and_time() -> None:
    """SECURITY has the bound that LIMITS has for all commands but replay."""
    bound = re.search(r"`(ulimit [^`]*)` for all commands but `replay`", " ".join(text_of("docs/LIMITS.md").split()))
    assert bound and f"`{bound[1]}` is a reasonable bound" in " ".join(text_of("SECURITY.md").split())


def test_streams_of_a_report(clone: Clone) -> None:
    """A report covers the streams FIRST to FIRST+COUNT-1, the last of which may be the greatest."""
    states = [clone.execute(f"./psi sample {FIRST} 0 {stream}")[1].split()[-1] for stream in range(3, 8)]
    report = reported(clone, f"{FIRST} 0 3 5")
    assert (report["samples", "-"], report["sum", "a"]) == (5, sum(map(int, states)))
    last = [clone.execute(f"./psi report {FIRST} 0 {2**64 - 2} {count}")[0] for count in (2, 3)]
    assert last == [0, 2]


def test_the_table_of_samples(clone: Clone) -> None:
    """START counts the samples of a table, those of its report, in descending order."""
    blocks = Document("docs/START.md", text_of("docs/START.md"), Expectations()).commands()
    table = next(block for block in blocks if block.startswith("tools/psi-states"))
    counts = [line.split() for line in clone.execute(table)[1].splitlines()]
    report = reported(clone, f"{TANDEM} 0 0 1000")
    numbers = [int(number) for number, _ in counts]
    cut = sum(int(number) * int(state.split(",")[0]) for number, state in counts)
    assert (sum(numbers), cut) == (report["met", "-"], report["sum", "cut"]) and len(counts) > 10
    assert numbers == sorted(numbers, reverse=True)


def test_psi_many_prints_the_same_report(clone: Clone) -> None:
    call = f"{FIRST} 3 1 40"
    one, many = clone.execute(f"./psi report {call}"), clone.execute(f"tools/psi-many {call}")
    assert one[:2] == many[:2]
    most = re.search(r"how many streams are drawn, 1 to ([\d,]+)", clone.execute("tools/psi-many -h")[1])
    assert most and len(most[1]) > len("65,536")


def test_what_is_not_coupled(clone: Clone) -> None:
    limit = tomllib.loads((EXAMPLES / "short-past.toml").read_text())["limit"]
    assert clone.execute("./psi sample examples/short-past.toml 0 0")[1] == f"not coupled within {2**limit}\n"


def test_the_network_of_psi_new(clone: Clone) -> None:
    """START's call of psi-new writes the network that the page shows, with rates of its proportion; its reward
    tells whether the first queue is full."""
    text = text_of("docs/START.md")
    call = re.search(r"`(tools/psi-new line [^`]*)`", " ".join(text.split()))
    shown = next(block[2] for block in BLOCK.finditer(text) if block[1] == "toml")
    assert call and shape_of(clone.execute(call[1])[1]) == shape_of(shown)
    net = tomllib.loads(shown)
    assert net["reward"][0]["level"] == net["queue"][0]["capacity"] - 1


def shape_of(text: str) -> tuple[list[tuple[int, int]], list[float]]:
    """The capacities, servers and rates of a network file, in their order; of rates the proportion."""
    net = tomllib.loads(text)
    rates = [event["rate"] for event in net["event"]]
    queues = [(queue["capacity"], queue.get("servers", 1)) for queue in net["queue"]]
    return queues, [rate / sum(rates) for rate in rates]


def test_the_gallery_has_its_table() -> None:
    rows = re.findall(r"^\| `([^`]*\.toml)` \|", text_of("examples/README.md"), re.M)
    assert sorted(rows) == sorted(name for name in os.listdir(EXAMPLES) if name.endswith(".toml"))


def test_steps_of_the_tour(clone: Clone) -> None:
    steps = re.findall(r"^## (\d+)\. ", text_of("docs/TOUR.md"), re.M)
    assert [int(step) for step in steps] == [*range(1, len(steps) + 1)]
    status, words, _ = clone.execute("tools/psi-plot -h")
    assert status == 0 and "psi-plot coupling" in words


def test_the_past_is_doubled(clone: Clone) -> None:
    """The horizon of a sample is the first power of two that isn't below the least one."""
    net = "examples/single-server.toml"
    least, horizon = (int(clone.execute(f"./psi {name} {net} 0 0")[1].split()[1]) for name in ("couple", "sample"))
    assert horizon // 2 < least <= horizon


def test_reports_with_another_limit_or_split(clone: Clone) -> None:
    """With a shorter past the horizons that are left are the same; with another split all is but these."""
    whole, short = (reported(clone, f"examples/{net}.toml 0 0 1000") for net in ("single-server", "short-past"))
    horizons = {key: count for key, count in short.items() if key[0] == "horizon"}
    assert horizons and all(whole[key] == count for key, count in horizons.items())
    reports = [reported(clone, f"examples/{net}.toml 0 0 1000") for net in ("longest-queue", "longest-queue-split")]
    one, other = ({key: value for key, value in it.items() if key[0] != "horizon"} for it in reports)
    assert one == other


def test_the_two_lines_of_a_monotone_network(clone: Clone) -> None:
    *_, constant, region = clone.execute("./psi exact examples/shortest-queue.toml 0 0 11")[1].splitlines()
    assert constant.split()[1] == region.split()[1]


def test_the_interval_of_the_guide_holds(clone: Clone) -> None:
    """START's interval of the loss probability holds the solution of the balance equations."""
    text = text_of("docs/START.md")
    row = re.search(r"^reward  full .* (0\.\d+)  (0\.\d+) ", text, re.M)
    solved = re.search(r"give ([\d.]+) %", " ".join(text.split()))
    assert row and solved and float(row[1]) <= float(solved[1]) / 100 <= float(row[2])


@pytest.mark.slow
@pytest.mark.needs("jupyter")
def test_notebook(program: str, tmp_path: pathlib.Path, capsys: pytest.CaptureFixture[str]) -> None:
    """The notebook runs, and its outputs are those that it is stored with."""
    stored = TOP / "docs/psi-in-python.ipynb"
    words = ["jupyter", "nbconvert", "--log-level", "ERROR", "--execute", "--to", "notebook"]
    (tmp_path / "psi").symlink_to(program)
    path = f"{tmp_path}:{os.environ['PATH']}"
    quiet = {"PYDEVD_DISABLE_FILE_VALIDATION": "1", "TQDM_DISABLE": "1"}
    printed_by(*words, "--output-dir", tmp_path, stored, seconds=900, env={**os.environ, "PATH": path, **quiet})
    assert notebook.main([str(stored), str(tmp_path / stored.name)]) == 0, capsys.readouterr()
