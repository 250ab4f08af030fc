"""refusal.py LINE COMMAND NET [LOG]

Prints where a file is wrong that PSI has refused with LINE, and what helps: the file, the number
and the text of its line, and a sentence. The scripts named psi call it where standard error is a
terminal. It prints nothing where it has nothing to say.
"""

import os
import pathlib
import re
import sys

sys.dont_write_bytecode = True
sys.path.insert(0, str(pathlib.Path(__file__).resolve().parent.parent))

import packaged  # noqa: F401, E402
from psi_tools.io.files import read_file  # noqa: E402
from psi_tools.errors import PsiError, printable  # noqa: E402
from psi_tools.model.refusals import found_in, text_of, text_of_line  # noqa: E402

LOG = re.compile(r"psi: log (refused|rejected) \d+ (\w+) line (\d+)")
# The most bytes of a log that are read.
MOST_BYTES = 33_554_433
REFUSED = {
    "TooLong": "The log has more than 33,554,432 bytes.",
    "Truncated": "The log ends before this line. The rest of it is missing: get all of it.",
    "NotLog": "The first line does not begin with `psi-log`: this is another file.",
    "Version": "The first line names another version than 1, or ends with a carriage return.",
    "Shape": "The line does not have the form of a log's line at this place.",
    "Number": "A number is not in digits alone, has a leading zero, or is out of its range.",
    "TrailingText": "Something follows the line `end`.",
}
REJECTED = {
    "Header": "The log is one of another network, or of this one with a higher `limit`.",
    "StepNumber": "The steps are not numbered down to 1.",
    "WrongEvent": "The random word of this step selects another event: rates, servers or the order "
    "of events are not those of the log.",
    "OutsideBox": "A state has more customers in a queue than the queue's capacity.",
    "NotCovered": "A state that is possible here is missing from the region of this line.",
    "SplitTooLarge": "A box of more than 4,096 states may not be followed by a set.",
    "NotSingle": "The last region has more than one state.",
    "WrongState": "The state of this line is not that of the last region.",
}
CAUSES = {"refused": REFUSED, "rejected": REJECTED}


def of_network(line: str, path: str) -> str:
    """Returns what there is to say of a network file."""
    data = read_file(path)
    return text_of(path, data, found_in(data, line))


def of_log(line: str, path: str) -> str:
    """Returns what there is to say of a log."""
    found = LOG.fullmatch(line)
    if found is None:
        raise LookupError(line)
    number, place = int(found[3]), printable(path)
    if number:
        with open(path, "rb") as file:
            text = text_of_line(file.read(MOST_BYTES), number)
        place += f":{number}: {text}"
    return f"{place}\n{CAUSES[found[1]][found[2]]}\n"


def main(line: str, *words: str) -> None:
    of, file = (of_log, words[2:3]) if line.startswith("psi: log ") else (of_network, words[1:2])
    # Only a plain file can be read a second time.
    if file and os.path.isfile(file[0]):
        sys.stdout.write(of(line, file[0]))


if __name__ == "__main__":
    try:
        main(*sys.argv[1:])
    except (PsiError, OSError, LookupError, TypeError):
        sys.exit(1)
