"""psi-why: why samples of a network may not couple, or only far back."""

import argparse

from psi_tools.cli.options import STREAM, Parser, number
from psi_tools.draw.diagnosis import Findings, findings_of
from psi_tools.draw.program import Program
from psi_tools.io import tables
from psi_tools.io.files import check_writable, write

COMMAND, STREAMS, SECONDS = "psi-why", 20, 10
ABOUT = """Reports what may keep samples of a network from coupling, and how far back they have to
begin:

- sums of customers that no event changes, so states with other sums never meet;
- numbers of a queue that can't be left, and queues that only fill or only empty;
- of small networks all classes of states that no event leaves;
- events that aren't monotone, where boxes may stay wide;
- the load of each queue: in balance the past has to be long;
- at which horizons some streams are met, from a short limit on to longer ones, as long as it takes;
- and where some aren't, what the single states of a small network become.

    psi-why desk.toml

What it reports of sums, numbers and states that can't be left is certain, and the status is 1 then:
no stream couples. All else helps to see why."""
BALANCE = 0.9, 1.1


def parser() -> Parser:
    parser = Parser(COMMAND, ABOUT)
    parser.add("net", "NET", "a network file")
    parser.add("--seed", "SEED", "the seed of the streams that are tried; 0 by default", type=STREAM, default=0)
    text = f"the number of streams that are tried, from 0 on; {STREAMS} by default"
    parser.add("--count", "N", text, type=number(1, 65_536), default=STREAMS)
    text = f"the number of seconds after which no longer limit is tried; {SECONDS} by default"
    parser.add("--seconds", "N", text, type=number(1, 86_400), default=SECONDS)
    parser.add_psi()
    parser.add_form("text", "json")
    return parser


def text_of(args: argparse.Namespace, found: Findings) -> str:
    """The answer for people."""
    lines = [f"NEVER COUPLES: {line}" for line in found["never"]]
    lines += found["one_sided"]
    for name, (low, high) in found["upset"].items():
        lines.append(f"{name} isn't monotone: see what it makes of {low} and of {high}")
    lines += [] if found["upset"] else ["all events are monotone"]
    rows = [("queue", "rate in", "rate out", "load", "")] if found["loads"] else []
    for row in found["loads"]:
        load = row["load"]
        remark = "nobody is served" if load is None else ""
        if row["giving_up"]:
            remark = f"and customers who wait give up, at rate {row['giving_up']:g} at most"
        elif load is not None and BALANCE[0] <= load <= BALANCE[1]:
            remark = "in balance: twice the places, four times the past"
        shown = "-" if load is None else f"{load:.3f}"
        rows.append((row["queue"], f"{row['in']:g}", f"{row['out']:g}", shown, remark))
    lines += tables.aligned(rows, right=(1, 2, 3))
    for power, met, shares in found["horizons"]:
        of = ", ".join(f"{count} at {horizon}" for horizon, count in shares)
        line = f"limit {power}: {met} of {args.count} streams are met"
        lines.append(line + (f" ({of})" if of else ""))
    lines += found["states"]
    if found["stopped"]:
        limit = found["limit"]
        lines.append(f"longer limits, up to the file's {limit}, take more time than was given")
    lines += [f"what may help: {line}" for line in found["advice"]]
    return tables.ended(lines)


def work(arguments: list[str]) -> int:
    args = parser().parse_args(arguments)
    check_writable(args.out)
    found = findings_of(Program(args.psi), args)
    write(tables.as_json(found) if args.format == "json" else text_of(args, found), args.out)
    return 1 if found["never"] else 0
