"""What may keep samples of a network from coupling, and how far back they have to begin."""

import argparse
import re
import subprocess
import time
from collections.abc import Iterator
from typing import Any

from psi_tools.draw.program import Program, accepted
from psi_tools.draw.reports import read_report
from psi_tools.io.exact import read_exact
from psi_tools.io.reports import Report
from psi_tools.model.moves import Moves, describe_classes, loads_of
from psi_tools.model.networks import Network, Table, checked

# A limit that was tried, with the report of its streams; events with states that show what they upset; and what was
# found, by what it is.
Tried = tuple[int, Report]
Upset = dict[str, tuple[str, str]]
Findings = dict[str, Any]

EXPONENT = 12


def sum_of(net: Network, weights: list[int]) -> str:
    """A sum of customers in words."""
    signed = [("- " if weight < 0 else "+ ", abs(weight), name) for weight, name in zip(weights, net.queues) if weight]
    parts = (sign + (f"{size} " if size != 1 else "") + name for sign, size, name in signed)
    return " ".join(parts).removeprefix("+ ")


def never_met(net: Network, moves: Moves) -> list[str]:
    """What keeps two states apart for ever, each as one sentence."""
    kept = moves.kept_sums()
    found = [f"no event changes the sum {sum_of(net, weights)}: states with other sums never meet" for weights in kept]
    alone = {weights.index(1) for weights in kept if sum(abs(weight) for weight in weights) == 1}
    for place, name in enumerate(net.queues):
        traps = moves.traps(place)
        if len(traps) > 1 and place not in alone:
            sets = " and ".join(numbers_of(*trap) for trap in traps[:3]) + " .." * (len(traps) > 3)
            line = f"{name} has {len(traps)} sets of numbers that no event leaves, {sets}"
            found.append(f"{line}: states in different ones never meet")
    return found


def numbers_of(least: int, greatest: int, many: int) -> str:
    """A set of numbers in words."""
    if many == 1:
        return str(least)
    return f"{least} to {greatest}" + (f" ({many} of them)" if many < greatest - least + 1 else "")


def one_sided(net: Network, moves: Moves) -> Iterator[str]:
    """The queues that only fill, or only empty."""
    for place, name in enumerate(net.queues):
        pairs = moves.steps(place)
        rises = any((end > begin).any() for begin, end in pairs)
        falls = any((end < begin).any() for begin, end in pairs)
        if rises and not falls:
            yield f"no event takes a customer from {name}: it only fills"
        if falls and not rises:
            yield f"no event brings a customer to {name}: it only empties"
        traps = moves.traps(place)
        if rises and falls and len(traps) == 1 and traps[0][2] == 1:
            yield f"{name} can't leave {traps[0][0]} once it is there"


def upset_of(check: str) -> Upset:
    """The events that aren't monotone, each with states that show it, by what `check` prints."""
    found: Upset = {}
    for event, *states in re.findall(r"^event (\S+) \d+ \d+ upset (\S+) (\S+)$", check, re.M):
        found.setdefault(event, (states[0], states[1]))
    return found


def horizons_of(psi: Program, net: Network, args: argparse.Namespace, limit: int) -> list[Tried]:
    """Ever longer limits with their reports, until all streams are met, the file's limit is reached or time is over."""
    until = time.monotonic() + args.seconds
    found: list[Tried] = []
    for power in dict.fromkeys([*range(min(6, limit), limit, 2), limit]):
        tried = net.copy()
        tried.heads["limit"], tried.table["reward"] = power, []
        left = until - time.monotonic()
        if left <= 0:
            break
        call = "report", tried.data, args.seed, 0, args.count
        try:
            done = accepted(psi.call(*call, seconds=left), "psi", (0,))
        except subprocess.TimeoutExpired:
            break
        found.append((power, read_report(done.out.encode(), "what psi printed")))
        if found[-1][1].met == args.count:
            break
    return found


def single_states(psi: Program, net: Network, args: argparse.Namespace) -> list[str]:
    """What `exact` prints of the first stream, in sentences; none where states are too many, or it takes too long."""
    try:
        done = psi.call("exact", net.data, args.seed, 0, EXPONENT, seconds=args.seconds)
    except subprocess.TimeoutExpired:
        return []
    if done.status not in (0, 1):
        return []
    found = read_exact(done.out.encode())
    states, longest = f"{found.states:,} states, followed each by itself", found.longest()
    if found.constant is None:
        return [f"of {states}, {found.images[longest]:,} are left after {longest:,} steps (stream 0)"]
    boxes = f"not within {longest:,}" if found.region is None else f"after {found.region:,}"
    return [f"all {states}, have met after {found.constant:,} steps (stream 0), the boxes of a run {boxes}"]


def load_rows(net: Network) -> list[dict[str, Any]]:
    """The load of each queue as a row, with the greatest rate of giving up; none where nobody comes from outside."""
    loads = loads_of(net)
    if not any(each.arrivals for each in loads):
        return []
    return [
        {"queue": name, "in": each.arrivals, "out": each.service, "load": each.load, "giving_up": each.giving_up}
        for name, each in zip(net.queues, loads)
    ]


def advice(
    found: list[Tried], kept: list[str], upset: Upset, heads: dict[str, int], count: int, net: Network
) -> Iterator[str]:
    """What may help, each as one sentence."""
    if kept and all(map(is_move, net.table["event"])):
        yield "the network is closed: psi closed is given the number of customers"
    if kept:
        return
    if found and found[-1][1].met == count:
        yield f"nothing: all {count} streams are met"
        return
    if not found or found[-1][0] < heads["limit"]:
        yield "more time for this tool (--seconds), since the file's limit wasn't reached"
    elif heads["limit"] < 22:
        yield f"a greater limit: 20, or 22 in version 2; the file's is {heads['limit']}"
    if upset and heads["split"] < 4096:
        yield f"a greater split, to 4,096; the file's is {heads['split']}"
    if upset:
        yield f"another model of what isn't monotone: {', '.join(upset)}"
    yield "smaller capacities, where a full queue is rare"


def is_move(event: Table) -> bool:
    """Whether an event moves a customer from one queue to another, or does nothing."""
    is_one = isinstance(event.get("to"), list) and len(event["to"]) == 1
    return event["kind"] == "service" and is_one and event.get("full") == "stay"


def findings_of(psi: Program, args: argparse.Namespace) -> Findings:
    """All findings, by what they are."""
    net = checked(psi, args.net)
    check = psi.ask("check", net.data).out
    heads = {key: int(value) for key, value in re.findall(r"^(\w+) (\d+)$", check, re.M)}
    upset, moves = upset_of(check), Moves(net)
    never = never_met(net, moves)
    found = [] if never else horizons_of(psi, net, args, heads["limit"])
    is_met = bool(found) and found[-1][1].met == args.count
    # What couples has one closed class alone.
    if not never and not any(report.met for _, report in found):
        never = describe_classes(net)
    return {
        "never": never,
        "one_sided": [*one_sided(net, moves)],
        "upset": upset,
        "loads": load_rows(net),
        "limit": heads["limit"],
        "horizons": [(power, report.met, report.horizons) for power, report in found],
        "states": [] if never or is_met else single_states(psi, net, args),
        "stopped": not never and not is_met and (not found or found[-1][0] < heads["limit"]),
        "advice": [*advice(found, never, upset, heads, args.count, net)],
    }
