"""merge_reports.py FILE..

Merges reports, each of which is a text that `psi report`, `psi_merge` or this program printed of
other streams of the same network, and prints the report of all. docs/FORMATS.md, 'The report' and
'Reports, merged', has the form of such a text, and what of it is refused.

It says what `psi_merge` says, with `merge_reports` in front and with the same exit status: 2 where
no file is named, 3 where one is no report, 4 where one is of another network, 5 where a number
would be too large, 6 where one can't be read, and 7 where the report can't be written. Both are
written from that page alone; they share no code.
"""

import operator
import os
import re
import sys
from collections import Counter
from collections.abc import Callable, Iterable, Sequence
from typing import NamedTuple

MOST_BYTES = 1_048_576
MOST_COUNT, MOST_VALUE = 2**64 - 1, 10**37 - 1
MOST_STEPS, MOST_CUSTOMERS = 2**22, 65_535
# Of the rewards the greatest magnitude: 32 queues, their customers, and a weight of 10^9.
MOST_WORTH = 32 * 65_535 * 10**9
MOST = {b"": 32, b"reward-": 64}
NAME = re.compile(rb"[A-Za-z0-9_-]{1,32}")
NUMBER = re.compile(rb"-?[0-9]*")
# A text whose rows are in their order, with no number out of its range: its counts, horizons and figures.
IN_ORDER = re.compile(
    rb"item,name,value\nsamples,-,(\d{1,20})\nmet,-,(\d{1,20})\nuncoupled,-,\d{1,20}\n"
    rb"((?:horizon,\d{1,20},\d{1,20}\n)*+)"
    rb"((?:(?:reward-)?(?:sum|least|greatest),[\w-]{1,32},-?\d{1,37}\n)*+)"
)
# How two figures come together; and the items of figures: their kinds, and which of them they are.
JOINS: dict[bytes, Callable[[int, int], int]] = {b"sum": operator.add, b"least": min, b"greatest": max}
ITEMS = {kind + word: (kind, word) for kind in MOST for word in JOINS}


class ReportError(Exception):
    """Why a file isn't merged: the exit status, and the message before its name."""

    def __init__(self, status: int, message: str) -> None:
        super().__init__(message)
        self.status = status


def refusal(cause: str, line: int) -> ReportError:
    return ReportError(3, f"refused {cause} line {line}")


class Figure(NamedTuple):
    """A sum or an extreme of a queue or a reward: its kind, which of them it is, name and value."""

    kind: bytes
    word: bytes
    name: bytes
    value: int


class Report(NamedTuple):
    """What a report has: how many samples there are, how many are met and at which horizons, and
    the figures of the queues and the rewards.
    """

    samples: int = 0
    met: int = 0
    horizons: Sequence[tuple[int, int]] = ()
    figures: Sequence[Figure] = ()

    def text(self) -> bytes:
        """The report as `psi report` prints it."""
        counts = self.samples, self.met, max(self.samples - self.met, 0)
        rows = [b"item,name,value\n", b"samples,-,%d\nmet,-,%d\nuncoupled,-,%d\n" % counts]
        rows += [b"horizon,%d,%d\n" % horizon for horizon in self.horizons]
        rows += [b"%s%s,%s,%d\n" % figure for figure in self.figures]
        return b"".join(rows)

    def sums(self) -> list[tuple[bytes, bytes]]:
        return [(figure.kind, figure.name) for figure in self.figures if figure.word == b"sum"]


def number(word: bytes, least: int, most: int) -> int | None:
    """The number that a field is, or none where it is no number of the range. No digit is 0."""
    if not NUMBER.fullmatch(word) or (least >= 0 and word.startswith(b"-")):
        return None
    digits = word.removeprefix(b"-").lstrip(b"0") or b"0"
    if len(digits) > len(b"%d" % most):
        return None
    value = -int(digits) if word.startswith(b"-") else int(digits)
    return value if least <= value <= most else None


def is_row(item: bytes, name: bytes, value: bytes) -> bool:
    """Whether some fields are a row."""
    if item in (b"item", b"uncoupled"):
        return True
    if item in (b"samples", b"met"):
        return number(value, 0, MOST_COUNT) is not None
    if item == b"horizon":
        return number(name, 0, MOST_COUNT) is not None and number(value, 0, MOST_COUNT) is not None
    is_named = item in ITEMS and NAME.fullmatch(name) is not None and value != b""
    return is_named and number(value, -MOST_VALUE, MOST_VALUE) is not None


def wrong_in(figures: Sequence[Figure], met: int, steady: bool) -> int | None:
    """The first of the figures of a queue or a reward that is wrong, of which the sum is the first,
    or none: the extremes are those of the sum where samples are met, and allow it; and a reward's
    are equal where those of each queue are, which are steady.
    """
    total = figures[0]
    if not met:
        return 0 if total.value else None
    least, most = (-MOST_WORTH, MOST_WORTH) if total.kind else (0, MOST_CUSTOMERS)
    for place, word in (1, b"least"), (2, b"greatest"):
        if place == len(figures) or figures[place][:3] != (total.kind, word, total.name):
            return place
        if not least <= figures[place].value <= most:
            return place
    low, high = figures[1].value, figures[2].value
    if low > high:
        return 2
    others = met - 1
    if not others * low + high <= total.value <= low + others * high:
        return 0
    return 2 if steady and total.kind and low < high else None


def flaw_in_figures(figures: Sequence[Figure], met: int) -> int | None:
    """The place of the first figure that may not stand there, that after all where figures are
    missing, or none.
    """
    names: dict[bytes, set[bytes]] = {b"": set(), b"reward-": set()}
    place, steady = 0, True
    while place < len(figures):
        figure = figures[place]
        known = names[figure.kind]
        in_order = not names[b"reward-"] if figure.kind == b"" else names[b""]
        if figure.word != b"sum" or not in_order:
            return place
        if figure.name in known or len(known) == MOST[figure.kind]:
            return place
        known.add(figure.name)
        width = 3 if met else 1
        own = figures[place : place + width]
        wrong = wrong_in(own, met, steady)
        if wrong is not None:
            return place + wrong
        steady = steady and len({extreme.value for extreme in own[1:]}) < 2
        place += width
    return None if names[b""] else 0


def flaw(report: Report) -> int | None:
    """The first line that no report of samples has there, or none."""
    if report.met > report.samples:
        return 3
    line, last, left = 5, 0, report.met
    for horizon, count in report.horizons:
        is_power = 0 < horizon <= MOST_STEPS and horizon & (horizon - 1) == 0
        if not is_power or horizon <= last or not 0 < count <= left:
            return line
        line, last, left = line + 1, horizon, left - count
    if left:
        return line
    place = flaw_in_figures(report.figures, report.met)
    return None if place is None else line + place


def read_in_order(found: re.Match[bytes]) -> Report:
    """The report of a text whose rows are in their order."""
    horizons, figures = ([row.split(b",") for row in rows.splitlines()] for rows in found.group(3, 4))
    met_at = [(int(horizon), int(count)) for _, horizon, count in horizons]
    values = [Figure(*ITEMS[item], name, int(value)) for item, name, value in figures]
    return Report(int(found[1]), int(found[2]), met_at, values)


def refusal_of(text: bytes) -> ReportError:
    """Why a text whose rows aren't in their order, or aren't rows, is refused."""
    for line, row in enumerate(text.split(b"\n"), 1):
        fields = row.split(b",")
        if fields != [b""] and (len(fields) != 3 or not is_row(*fields)):
            return refusal("1 Row", line)
    return refusal("2 Text", 0)


def read(text: bytes) -> Report:
    """The report that a text is; raises ReportError where it is none."""
    if len(text) > MOST_BYTES:
        raise refusal("0 TooLong", 0)
    found = IN_ORDER.fullmatch(text)
    report = read_in_order(found) if found else Report()
    counts = report.samples, report.met, *(number for horizon in report.horizons for number in horizon)
    if max(counts) > MOST_COUNT or report.text() != text:
        raise refusal_of(text)
    wrong = flaw(report)
    if wrong is not None:
        raise refusal("3 Samples", wrong)
    return report


def place_of_difference(first: Report, report: Report) -> int:
    """The line of a report at which its queues and rewards differ from another's; 0 for nowhere."""
    sums, others = report.sums(), first.sums()
    if sums == others:
        return 0
    same = len(os.path.commonprefix([sums, others]))
    return 5 + len(report.horizons) + same * (3 if report.met else 1)


def both_figures(first: Report, other: Report) -> Sequence[Figure]:
    """What the figures of two reports come to together."""
    if not first.met or not other.met:
        return other.figures if not first.met else first.figures
    pairs = zip(first.figures, other.figures)
    return [one._replace(value=JOINS[one.word](one.value, two.value)) for one, two in pairs]


def together(first: Report, other: Report) -> Report:
    """The report of the samples of two; raises ReportError where it isn't one."""
    line = place_of_difference(first, other)
    if line:
        raise ReportError(4, f"other network line {line}")
    horizons, figures = Counter(dict(first.horizons)) + Counter(dict(other.horizons)), both_figures(first, other)
    both = Report(first.samples + other.samples, first.met + other.met, sorted(horizons.items()), figures)
    large = [place for place, figure in enumerate(both.figures) if abs(figure.value) > MOST_VALUE]
    if both.samples > MOST_COUNT:
        raise ReportError(5, "too large line 2")
    if max(both.met, *horizons.values(), 0) > MOST_COUNT:
        raise ReportError(5, "too large line 3")
    if large:
        raise ReportError(5, f"too large line {5 + len(other.horizons) + large[0]}")
    return both


def merged(files: Iterable[str | os.PathLike[str]]) -> Report:
    """The report of all files; raises ReportError, with the file's name at its end, where one is refused."""
    whole = Report()
    for place, file in enumerate(files):
        with open(file, "rb") as opened:
            text = opened.read(MOST_BYTES + 1)
        try:
            report = read(text)
            whole = together(whole, report) if place else report
        except ReportError as refused:
            raise ReportError(refused.status, f"{refused} {file}") from None
    return whole


def main(files: list[str]) -> int:
    if not files or any(file.startswith("-") for file in files):
        print("merge_reports: usage: merge_reports.py FILE..", file=sys.stderr)
        return 2
    try:
        text = merged(files).text()
    except ReportError as refused:
        print(f"merge_reports: {refused}", file=sys.stderr)
        return refused.status
    except OSError as fault:
        print(f"merge_reports: cannot read {fault.filename}", file=sys.stderr)
        return 6
    try:
        sys.stdout.buffer.write(text)
        sys.stdout.buffer.flush()
    except OSError:
        return 7
    return 0


if __name__ == "__main__":
    sys.exit(main(sys.argv[1:]))
