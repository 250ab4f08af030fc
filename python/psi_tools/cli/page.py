"""psi-page: one HTML file in which the runs of a sample are stepped through in a browser."""

import pathlib
import tempfile
from typing import Any

from psi_tools.cli.options import Parser
from psi_tools.draw.program import Program
from psi_tools.errors import GREATEST, NUMBER, PsiError
from psi_tools.io.files import check_writable, read_file, write
from psi_tools.model.networks import Network, checked
from psi_tools.plot.page import page_of, runs_of

COMMAND = "psi-page"
# The longest log of which a browser is given a page, in bytes.
MOST_LOG = 20_000_000
ABOUT = """Writes one HTML file in which the runs of a sample are stepped through in a browser: the network
with the customers that each queue may hold, a time line, each random word and the event that it
picks, and what `psi replay` checks at each step. The page needs no network and no other file.

    psi-page desk.toml 0 0 -o desk.html
    psi-page desk.toml --log desk.log -o desk.html

The first form takes the log of the sample from psi; the second takes a log, which `psi replay` has to
accept. The runs from 1, 2, 4, .. steps before time zero that fail are followed by a plain program in
Python. A log of more than 20,000,000 bytes is refused."""


def parser() -> Parser:
    parser = Parser(COMMAND, ABOUT)
    parser.add("net", "NET", "a network file")
    parser.add("streams", "SEED STREAM", "the sample's seed and stream, 0 to 2^64 - 1", nargs="*")
    parser.add("--log", "FILE", "a log of `psi sample NET SEED STREAM log`, instead of SEED STREAM")
    parser.add("-o --out", "FILE", "the page that is written, one HTML file", required=True)
    parser.add("-t --title", "TITLE", "a title instead of the file's name", default="")
    parser.add_psi()
    return parser


def parse(arguments: list[str]) -> Any:
    """The arguments by their meaning."""
    args = parser().parse_intermixed_args(arguments)
    are_numbers = all(NUMBER.fullmatch(word) and int(word) <= GREATEST for word in args.streams)
    if args.log is None and (len(args.streams) != 2 or not are_numbers):
        raise PsiError("SEED and STREAM are two numbers up to 2^64 - 1; `psi-page --help` lists the arguments")
    if args.log is not None and args.streams:
        raise PsiError("--log replaces SEED STREAM")
    check_writable(args.out)
    return args


def log_of(psi: Program, net: Network, args: Any) -> bytes:
    """The log that psi writes of the sample, or that of the file that is given."""
    if args.log is None:
        answer = psi.ask("sample", net.data, *args.streams, "log", statuses=(0, 1))
        if answer.status:
            raise PsiError(f"{args.net}: {answer.out.strip()}, so there is no log to step through", 1)
        return answer.out.encode()
    return read_file(args.log, MOST_LOG)


def accept(psi: Program, net: Network, log: bytes, name: str) -> None:
    """Refuses a log that is too long for a browser, or that `psi replay` does not accept."""
    if len(log) > MOST_LOG:
        raise PsiError(f"{name}: the log has more than {MOST_LOG:,} bytes, which is too long for a page in a browser")
    with tempfile.NamedTemporaryFile() as file:
        file.write(log)
        file.flush()
        psi.ask("replay", net.data, file.name)


def work(arguments: list[str]) -> None:
    args = parse(arguments)
    psi = Program(args.psi)
    net = checked(psi, args.net)
    log = log_of(psi, net, args)
    accept(psi, net, log, args.log or args.net)
    title = args.title or pathlib.Path(args.net).stem
    write(page_of(runs_of(net, log, title)), args.out)
