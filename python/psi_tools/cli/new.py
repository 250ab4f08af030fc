"""psi-new: a network file from a few arguments."""

import argparse
import os
import re
import textwrap
from collections.abc import Callable
from fractions import Fraction
from typing import Any, TypeVar

from psi_tools.cli.options import Parser, number
from psi_tools.draw.program import Program
from psi_tools.errors import PsiError
from psi_tools.io.files import check_writable, write
from psi_tools.io.terminal import print_note
from psi_tools.model import catalog as models

Value = TypeVar("Value")

COMMAND = "psi-new"
ABOUT = """Writes a network file from a few arguments. Rates may be whole numbers, have places behind a
point, or be fractions such as 1/3: they are made whole by a common factor, and how far they are off
by that, if at all, is told and stands in the file's comment; where one would be off by more than
1 %, nothing is written. Lists have commas between.

    psi-new mmck --arrival 190 --service 1 --servers 200 --places 260 -o calls.toml
    psi-new line --arrival 0.8 --service 1,1.2,1 --places 4 -o line.toml

`psi-new KIND --help` lists the options of a kind."""
RATE = re.compile(r"\d{1,9}(?:\.\d{1,9})?(?:/[1-9]\d{0,8})?|\.\d{1,9}")
WIDTH = 98
# What the file is called in its comment where its own name isn't of this form, or isn't known.
NAME, UNNAMED = re.compile(r"[A-Za-z0-9_.-]{1,60}\.toml"), "net.toml"
# A report of this number of streams is shown where the first one coalesces within this horizon.
SHOWN, MOST_STEPS = 1_000, 8_192
# By so much of itself a rate may be off without being asked for.
MOST_OFF = Fraction(1, 100)


class Rate(Fraction):
    """A rate, as it was written."""

    word: str

    def __new__(cls, word: str) -> "Rate":
        made = super().__new__(cls, word)
        made.word = word
        return made

    def __str__(self) -> str:
        return self.word


def rate(word: str) -> Rate:
    """The rate that a word is: above 0."""
    if not RATE.fullmatch(word) or "." in word and "/" in word or Rate(word) <= 0:
        raise argparse.ArgumentTypeError("a number above 0 is wanted, as 4, 0.8 or 1/3")
    return Rate(word)


def share(word: str) -> Rate:
    """The probability that a word is: between 0 and 1."""
    value = rate(word)
    if value >= 1:
        raise argparse.ArgumentTypeError("a probability between 0 and 1 is wanted")
    return value


def some(read: Callable[[str], Value]) -> Callable[[str], list[Value]]:
    """The type of a list of words with commas between."""

    def read_all(word: str) -> list[Value]:
        values = [read(part) for part in word.split(",")]
        if len(values) > 32:
            raise argparse.ArgumentTypeError("there are more than 32 values")
        return values

    return read_all


PLACES = number(1, 65_535)
# For each option, which is called by its first word, its type, its form and its help.
OPTIONS: dict[str, tuple[Callable[[str], Any], str, str]] = {
    "arrival": (rate, "R", "the rate at which customers come"),
    "arrival of each": (some(rate), "R,R", "the rates at which the classes come; one stands for both"),
    "service": (rate, "R", "the rate at which one server serves"),
    "service of each": (some(rate), "R,..", "the rates of the queues' servers"),
    "servers": (number(1, 1_023), "N", "how many servers there are"),
    "servers up to 64": (number(1, 64), "N", "how many servers there are, at most 64"),
    "servers of each": (some(number(1, 64)), "N,..", "the servers of each queue; one stands for all"),
    "servers of groups": (some(number(1, 64)), "N,..", "the lines of each group"),
    "places": (PLACES, "N", "how many customers there is room for, those in service too"),
    "places of each": (some(PLACES), "N,..", "the places of each queue; one stands for all"),
    "patience": (rate, "R", "the rate at which each customer who waits gives up"),
    "size": (number(2, 65_535), "N", "how many come together"),
    "customers": (number(1, 256), "N", "how many customers go round"),
    "break": (rate, "R", "the rate at which the machine breaks down"),
    "repair": (rate, "R", "the rate at which it is repaired"),
    "phases": (number(2, 100), "N", "how many phases a service has"),
    "quick": (share, "P", "the probability of a quick service"),
    "again": (share, "P", "the probability that a part goes back"),
}
KINDS = {
    "mm1k": (models.single_server, ("arrival", "service", "places")),
    "mmck": (models.several_servers, ("arrival", "service", "servers", "places")),
    "erlang-loss": (models.erlang_loss, ("arrival", "service", "servers")),
    "abandonment": (models.abandonment, ("arrival", "service", "servers", "places", "patience")),
    "batch": (models.batches, ("arrival", "size", "service", "servers up to 64", "places")),
    "line": (models.line, ("arrival", "service of each", "places of each", "servers of each?", "lost!")),
    "overflow": (models.overflow, ("arrival", "service", "servers of groups")),
    "shortest-queue": (models.shortest_queue, ("arrival", "service of each", "places")),
    "closed": (models.closed, ("service of each", "customers")),
    "breakdowns": (models.breakdowns, ("arrival", "service", "places", "break", "repair")),
    "priority": (models.priority, ("arrival of each", "service of each", "places of each")),
    "fork-join": (models.fork_join, ("arrival", "service of each", "places of each")),
    "erlang-service": (models.erlang_service, ("arrival", "service", "phases", "places")),
    "hyperexponential": (models.hyperexponential, ("arrival", "service of each", "quick", "places")),
    "rework": (models.rework, ("arrival", "service of each", "again", "places of each")),
}


def parser() -> Parser:
    """The parser of the arguments, with a subparser for each kind."""
    parser = Parser(COMMAND, ABOUT)
    kinds = parser.add_subparsers(metavar="KIND", dest="kind", help="what is modelled:")
    for name, (model, options) in KINDS.items():
        kind = kinds.add_parser(name, help=model.__doc__)
        for option in options:
            add(kind, option)
        kind.add("-o --out", "FILE", "the file that is written; standard output by default")
        kind.add("--psi", "PSI", "the built program, which has to take the file")
        kind.flag("--anyway", "write the file though a rate is off by more than 1 %% of itself")
    return parser


def add(kind: Parser, option: str) -> None:
    """Adds an option to a kind; one with a question mark may be absent, and one with an exclamation
    mark has no value."""
    if option.endswith("!"):
        kind.flag(f"--{option[:-1]}", "who finds the next queue full is lost; without it it stays (blocking)")
        return
    name = option.removesuffix("?")
    read, form, text = OPTIONS[name]
    keys = {"dest": "breaks"} if name == "break" else {}
    is_wanted = name == option
    text += "" if is_wanted else "; one by default"
    kind.add(f"--{name.split()[0]}", form, text, type=read, required=is_wanted, **keys)


def comment_of(made: models.Made, factor: Fraction, off: Fraction) -> str:
    """The comment of the file."""
    text = made.comment
    if factor != 1:
        is_short = factor.denominator < 1000 and factor < 10**9
        shown = str(factor) if is_short else f"{float(factor):.6g}"
        text += f" In the file all rates are multiplied by {shown}."
    if off:
        text += f" As they are rounded then, a rate is off by at most {float(off):.1e} of itself."
    return "".join(f"# {line}\n" for line in textwrap.wrap(text, WIDTH))


def text_of(args: argparse.Namespace) -> tuple[str, Fraction]:
    """The text of the file, and by how much a rate is off at most."""
    made = KINDS[args.kind][0](args)
    factor, off = models.made_whole(made.net)
    if off > MOST_OFF and not args.anyway:
        raise PsiError(
            f"the format has no room for these rates: one would be off by {float(off):.1e} of "
            "itself; give rates that are nearer to each other, or say --anyway"
        )
    comment, net = comment_of(made, factor, off), made.net.toml()
    return comment + shown(args, (comment + net).encode()) + net, off


def shown(args: argparse.Namespace, data: bytes) -> str:
    """What psi prints of the network, as lines of its comment; refuses one that psi doesn't take.
    Where there is no psi it isn't asked."""
    try:
        psi = Program(args.psi)
    except PsiError:
        if args.psi:
            raise
        print_note(COMMAND, "there is no psi that checks the file; --psi names it")
        return ""
    answer = psi.call("check", data)
    if answer.status:
        raise PsiError(f"psi refuses it: {answer.line.removeprefix('psi: ')}", answer.status)
    if args.kind == "closed":
        return run_of(psi, args, data, "closed", 0, 0, args.customers)
    sample = run_of(psi, args, data, "sample", 0, 0)
    met = re.search(r"met (\d+)$", sample, re.M)
    if met and int(met[1]) <= MOST_STEPS:
        return sample + run_of(psi, args, data, "report", 0, 0, SHOWN)
    return sample


def run_of(psi: Program, args: argparse.Namespace, data: bytes, command: str, *numbers: int) -> str:
    """One call of psi, as lines of the comment."""
    name = os.path.basename(args.out or "")
    name = name if NAME.fullmatch(name) else UNNAMED
    called = " ".join(map(str, ["psi", command, name, *numbers]))
    answer = psi.ask(command, data, *numbers, statuses=(0, 1))
    lines = [f"#     {line}" for line in answer.out.splitlines()]
    return "\n".join(["#", f"# `{called}` prints", "#", *lines, ""])


def work(arguments: list[str]) -> int:
    args = parser().parse_args(arguments)
    if args.kind is None:
        raise PsiError(f"a kind is expected: {', '.join(KINDS)}; `psi-new --help` lists them")
    check_writable(args.out)
    text, off = text_of(args)
    write(text, args.out)
    if off:
        print_note(COMMAND, f"the rates are rounded: one is off by at most {float(off):.1e} of itself")
    return 0
