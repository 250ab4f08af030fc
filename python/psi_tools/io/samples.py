"""Tables of samples and of paths, as psi_states and psi_paths print them: a header, and a row for each stream."""

import re
from collections.abc import Sequence

from psi_tools.errors import PsiError

# The rows of some streams without their streams, as text; none where a stream isn't coupled.
Rows = list[str | None]


def rows_of(header: Sequence[str], text: str, first: int, count: int, program: str = "psi_states") -> Rows:
    """The rows of a table of some streams that a program prints. Raises PsiError where the text is no such table: the
    header or a row is missing or another one, or a row hasn't a field for each column."""
    lines = text.split("\n")
    if lines[0] != ",".join(header) or len(lines) != count + 2 or lines[-1]:
        raise PsiError(f"{program} printed no table of these streams")
    empty, commas = "," * (len(header) - 2), len(header) - 2
    rows: Rows = []
    for stream, line in enumerate(lines[1:-1], first):
        row = line.removeprefix(f"{stream},")
        if row is line or row.count(",") != commas:
            raise PsiError(f"{program} printed no row of stream {stream}")
        rows.append(None if row == empty else row)
    return rows


def is_table(header: Sequence[str], data: bytes, first: int, count: int) -> bool:
    """Whether some bytes are the table of some streams, whole and in order, in which each row has whole numbers or,
    where its stream isn't coupled, nothing."""
    try:
        rows = rows_of(header, data.decode("ascii"), first, count)
    except (PsiError, UnicodeDecodeError):
        return False
    fields = (r",-?\d+" if name.startswith("reward.") else r",\d+" for name in header[2:])
    row = re.compile(r"\d+" + "".join(fields), re.ASCII)
    return all(each is None or row.fullmatch(each) for each in rows)


def uncoupled_in(header: Sequence[str], rows: bytes) -> int:
    """How many of some lines of a table are of streams that aren't coupled: all fields but the first are empty, which
    no other row has."""
    return rows.count(b"," * (len(header) - 1) + b"\n")
