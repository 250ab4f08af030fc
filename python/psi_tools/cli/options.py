"""Options that several commands share, and the parser of their arguments."""

import argparse
from collections.abc import Callable
from typing import Any, NoReturn

from psi_tools import __version__
from psi_tools.errors import GREATEST, NUMBER, PsiError
from psi_tools.io.files import check_writable


class Parser(argparse.ArgumentParser):
    """The parser of a command's arguments, which reports in one line what is wrong."""

    def __init__(self, prog: str, description: str | None = None, **more: Any) -> None:
        form = argparse.RawDescriptionHelpFormatter
        super().__init__(prog, description=description, allow_abbrev=False, formatter_class=form, **more)
        self.add_argument("--version", action="version", version=f"{prog} {__version__}", help="print the version")

    def add(self, names: str, metavar: str, text: str, **more: Any) -> None:
        """Adds an argument, or an option with a value, by its names, what its value is called, and its help."""
        self.add_argument(*names.split(), metavar=metavar, help=text, **more)

    def flag(self, name: str, text: str) -> None:
        """Adds an option without a value."""
        self.add_argument(name, action="store_true", help=text)

    def error(self, message: str) -> NoReturn:
        raise PsiError(f"{message}; `{self.prog} --help` lists the arguments")

    def add_streams(self, count: int) -> None:
        """Adds the options that choose the samples; `count` is the default number of them."""
        seed = "the seed of the random words, 0 to 2^64 - 1; 0 by default"
        self.add("--seed", "SEED", seed, type=STREAM, default=0)
        self.add("--first", "STREAM", "the first stream, 0 to 2^64 - 1; 0 by default", type=STREAM, default=0)
        text = f"the number of streams that are drawn, from the first on; {count:,} by default"
        self.add("--count", "N", text, type=number(1, 2**36), default=count)

    def add_psi(self, more: str = "", default: str | None = None) -> None:
        """Adds the option that names the program psi; `more` states what it is for."""
        text = f"the built program; crates/psi/out/psi, or psi on the PATH, by default{more}"
        self.add("--psi", "PSI", text, default=default)

    def add_program(self) -> None:
        """Adds the options that name the program psi, and the number of processes."""
        self.add_psi()
        text = "the number of processes that draw at the same time; that of the processors by default"
        self.add("--jobs", "N", text, type=number(1, 1024))

    def add_form(self, *forms: str) -> None:
        """Adds the options for the form of the answer, and for where it is written."""
        text = "text for people, csv or json for programs; text by default"
        self.add_argument("--format", choices=forms or ("text", "csv", "json"), default="text", help=text)
        self.add("-o --out", "FILE", "the file that the answer is written to; standard output by default")

    def add_picture(self) -> None:
        """Adds the option of a picture."""
        self.add("--picture", "FILE", "draw a picture, too: .svg, .png or .pdf by its name")

    def add_guaranteed(self) -> None:
        """Adds the options of guaranteed intervals."""
        self.flag("--guaranteed", "intervals whose coverage is a theorem, docs/LAW.md, and not common statistics")
        text = "the file for the certificates of the intervals, as JSON, which tools/check_interval.py checks"
        self.add("--certificate", "FILE", f"with --guaranteed, {text}")


def number(least: int, most: int) -> Callable[[str], int]:
    """The type of an argument that is a number from `least` to `most`, written as psi accepts it."""

    def read(word: str) -> int:
        if not NUMBER.fullmatch(word) or len(word) > 20 or not least <= int(word) <= most:
            raise argparse.ArgumentTypeError(f"a number from {least} to {most} is expected")
        return int(word)

    return read


# A seed or a stream, the customers of a closed network, the steps of a path, and how many pilot streams there are.
STREAM, TOTAL, STEPS, PILOTS = number(0, GREATEST), number(0, 256), number(0, 2**32 - 2**22), number(0, 2**20)


def check_files(args: argparse.Namespace) -> None:
    """Refuses options that go with guaranteed intervals alone, and files that can't be written, before any work."""
    given = vars(args)
    for option in ("certificate", "pilot"):
        if given.get(option) is not None and not args.guaranteed:
            raise PsiError(f"--{option} goes with --guaranteed")
    check_writable(given.get("certificate"), "--certificate")
    check_writable(args.out)
    if given.get("picture") and args.picture.rpartition(".")[2].lower() not in ("svg", "png", "pdf"):
        raise PsiError("--picture names no .svg, .png or .pdf")
    check_writable(given.get("picture"), "--picture")
