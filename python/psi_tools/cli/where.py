"""psi-where: the line of a network file that psi refuses, with the guide's sentence on it."""

from psi_tools.cli.options import Parser, check_files
from psi_tools.draw.program import Program, accepted
from psi_tools.errors import printable
from psi_tools.io import tables
from psi_tools.io.files import read_file, write
from psi_tools.model.refusals import SENTENCES, found_in, text_of, text_of_line

COMMAND = "psi-where"
ABOUT = """Prints what psi check refuses in a network file: the file, the line, the line's text, the
value at fault with the bound that it passes or the name that was meant, and the guide's sentence on
what is wrong and what helps. Where the file is no TOML it prints what is wrong with it as such.

    psi-where desk.toml

The status is 0 where psi accepts the file, and 3, as that of psi check, where it refuses it."""


def parser() -> Parser:
    parser = Parser(COMMAND, ABOUT)
    parser.add("net", "NET", "a network file")
    parser.add_psi()
    parser.add_form("text", "json")
    return parser


def work(arguments: list[str]) -> int:
    args = parser().parse_args(arguments)
    check_files(args)
    psi = Program(args.psi)
    data = read_file(args.net)
    answer = accepted(psi.call("check", data), "psi", (0, 3))
    if answer.status == 0:
        message = "null" if args.format == "json" else f"{printable(args.net)}: psi accepts it"
        write(f"{message}\n", args.out)
        return 0
    found = found_in(data, answer.line)
    if args.format == "json":
        text = None if found["line"] is None else text_of_line(data, found["line"])
        sentence = SENTENCES[found["name"]]
        write(tables.as_json({**found, "text": text, "sentence": sentence}), args.out)
    else:
        write(text_of(args.net, data, found), args.out)
    return 3
