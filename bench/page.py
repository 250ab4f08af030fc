"""The text of PERFORMANCE.md, of what was measured."""

import dataclasses
import math
import operator
import textwrap

import texts
from networks import Case
from rivals import Bias, Found
from texts import CALLED
from turns import LIMITS, Taken, Turns

# The base of a table and what it is compared with: in the first PSI and all others, in the second paths.
METHODS, WALKERS = ("psi", *CALLED), ("paths", "psi", "chain")
# The figures of a run: seconds until the target, those without the start and of the start, and nanoseconds a step.
SECONDS, WORK, START, STEP = map(operator.attrgetter, ("seconds", "work", "start", "step"))


@dataclasses.dataclass
class Sampling:
    """What samples of a network take: the samples and steps of the runs whose time was measured,
    these runs, instructions a step (none without valgrind), and the bytes of memory."""

    case: Case
    samples: int
    steps: int
    turns: Turns[Taken]
    instructions: float | None
    peak: int

    @property
    def each(self) -> float:
        """The seconds of a sample, without those of the start."""
        return self.turns.trimmed_mean(self.case.name, WORK) / self.samples

    @property
    def step(self) -> list[str]:
        """The nanoseconds and the instructions of a step."""
        return [shown(self.each * self.samples / self.steps * 1e9), shown(self.instructions)]


@dataclasses.dataclass
class Comparison:
    """The turns of some methods on a network, and its number of states."""

    case: Case
    states: int
    turns: Turns[Found]


@dataclasses.dataclass
class Measured:
    """All that the page shows."""

    machine: list[tuple[str, str]]
    samplings: list[Sampling]
    families: dict[str, dict[str, Sampling]]
    comparisons: list[Comparison]
    walks: list[Comparison]
    exact: float
    biases: list[Bias]
    bias_steps: int
    bias_runs: int


def shown(value: float | None) -> str:
    """A number in three figures."""
    if value is None or math.isnan(value):
        return "-"
    rounded = float(f"{value:.3g}")
    if rounded >= 100 or not rounded:
        return f"{rounded:,.0f}"
    return f"{rounded:.{2 - math.floor(math.log10(rounded))}f}"


def table(head: list[str], rows: list[list[str]]) -> str:
    """A table, numbers to the right."""
    rule = ["---"] + ["---:"] * (len(head) - 1)
    return "".join("| " + " | ".join(row) + " |\n" for row in [head, rule, *rows])


def wrapped(text: str) -> str:
    """Paragraphs and items of lists, wrapped at 100."""
    parts = []
    for paragraph in text.strip().split("\n\n"):
        indent = "  " if paragraph.startswith("- ") else ""
        for item in ("\n" + paragraph).split("\n- ") if indent else [paragraph]:
            if item.strip():
                item = " ".join(item.split())
                parts.append(
                    textwrap.fill(
                        "- " * bool(indent) + item,
                        100,
                        break_on_hyphens=False,
                        break_long_words=False,
                        subsequent_indent=indent,
                    )
                )
        parts.append("")
    return "\n".join(parts)


def sampling_row(one: Sampling) -> list[str]:
    """The row of a network: how fast its samples are drawn."""
    counts = [shown(one.steps / one.samples), shown(1 / one.each)]
    return [one.case.about or one.case.name, *counts, *one.step, f"{one.peak / 1e6:.1f}"]


def growth(name: str, family: dict[str, Sampling]) -> str:
    """The table of a family: its cost beside that of the first network."""
    first, *_ = family.values()
    rows = [
        [
            value,
            shown(one.turns.ratio(one.case.name, WORK) * first.samples / one.samples),
            shown(one.steps / one.samples),
            *one.step,
        ]
        for value, one in family.items()
    ]
    head = [name, texts.EACH, "steps a sample", "ns a step", "instructions a step"]
    return table(head, rows)


def time_table(comparisons: list[Comparison]) -> str:
    """The table of times until the target, the ratios to PSI's first."""
    rows = [
        [
            one.case.name,
            *(shown(one.turns.ratio(method, SECONDS)) for method in CALLED),
            shown(one.turns.trimmed_mean("psi", SECONDS)),
        ]
        for one in comparisons
    ]
    return table(["network", *CALLED.values(), "PSI, seconds"], rows)


def walk_table(walks: list[Comparison]) -> str:
    """The table of paths beside samples and the plain chain."""
    rows = [
        [
            one.case.about,
            *(shown(one.turns.trimmed_mean(method, SECONDS)) for method in ("psi", "paths", "chain")),
            shown(1 / one.turns.ratio("chain", SECONDS)),
            *(shown(one.turns.trimmed_mean(method, STEP)) for method in ("paths", "chain")),
            shown(1 / one.turns.ratio("chain", STEP)),
        ]
        for one in walks
    ]
    head = ["network", "samples, s", "paths, s", "plain chain, s", texts.RATIO, "paths, ns a step", "chain, ns a step"]
    return table([*head, texts.STEPS_RATIO], rows)


def estimate(runs: list[tuple[Found, Found]]) -> str:
    """The estimate of some runs, with half its interval where it has one."""
    if not runs:
        return "-"
    found, _ = runs[0]
    half = f" ± {found.half:.3f}" if found.half > 0 else ""
    return f"{found.mean:.3f}{half}"


def mean_table(comparisons: list[Comparison]) -> str:
    """The table of the means that the methods found. SimPy's runs are too short for one."""
    methods = [method for method in CALLED if method != "simpy"]
    rows = [
        [one.case.name, shown_states(one.states), *(estimate(one.turns.pairs[it]) for it in ("psi", *methods))]
        for one in comparisons
    ]
    return table(["network", "states", "PSI", *(CALLED[method] for method in methods)], rows)


def shown_states(count: int) -> str:
    """A number of states, as a power of ten where it is great."""
    return f"{count:,}" if count < 10**7 else f"10^{math.log10(count):.0f}"


def bias_table(biases: list[Bias]) -> str:
    """The table of what a wrong warm-up gives."""
    rows = [[f"{one.warm:,}", f"{one.mean:.3f} ± {one.half:.3f}", f"{100 * one.off:+.1f} %"] for one in biases]
    return table(["steps of warm-up", "mean of all runs", "off by"], rows)


def where_right(comparisons: list[Comparison]) -> str:
    """For each method, on which networks it takes less and more time than PSI."""
    items = []
    for method in CALLED:
        ratios = {one.case.name: one.turns.ratio(method, SECONDS) for one in comparisons}
        less = [name for name, ratio in ratios.items() if ratio < 1]
        more = [name for name, ratio in ratios.items() if ratio >= 1]
        lacks = len(ratios) - len(less) - len(more)
        parts = [f"less time than PSI on {', '.join(less)}"] if less else []
        parts += [f"more on {', '.join(more)}"] if more else []
        parts += [f"no answer for the other {lacks}"] if 0 < lacks < len(ratios) else []
        parts = parts or ["not measured"]
        items.append(f"- **{CALLED[method]}**: {'; '.join(parts)}. {texts.ADVICE[method]}")
    return "\n".join(items)


def page(found: Measured, rounds: int, batches: int, paths: int, most: int) -> str:
    """The whole page."""
    start = min(one.turns.trimmed_mean(one.case.name, START) for one in found.samplings) * 1_000
    rows = [sampling_row(one) for one in found.samplings]
    head = ["network", "steps a sample", "samples a second", "ns a step", "instructions a step", "MB"]
    parts = [
        "# Performance\n",
        wrapped(texts.HEAD.format(rounds=rounds, **LIMITS)),
        f"## {texts.COMPARING}\n",
        wrapped(texts.COMPARED.format(batches=batches, most=most)),
        time_table(found.comparisons),
        f"## {texts.WALKING}\n",
        wrapped(texts.WALKS.format(paths=paths)),
        walk_table(found.walks),
        "## Which method to choose\n",
        wrapped(where_right(found.comparisons)),
        wrapped(texts.PSI),
        "## Initialization bias\n",
        wrapped(texts.BIAS.format(runs=found.bias_runs, steps=found.bias_steps, exact=found.exact)),
        bias_table(found.biases),
        wrapped(texts.BIAS_END),
        f"## {texts.GROWING}\n",
        wrapped(texts.GROWTH),
        *(growth(name, family) for name, family in found.families.items()),
        "## Samples a second\n",
        wrapped(texts.SAMPLES.format(start=start)),
        table(head, rows),
        "## The means that were found\n",
        wrapped(texts.MEANS),
        mean_table(found.comparisons),
        "## The machine\n",
        table(["what", "value"], [list(row) for row in found.machine]),
    ]
    return "\n".join(part.rstrip("\n") + "\n" for part in parts)
