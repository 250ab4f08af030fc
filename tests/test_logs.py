"""The program's replay says of changed logs (logs.py) what check_log.py does, which stands apart from
it, with the same status; and some log has each cause of a refusal.
"""

import concurrent.futures
import os
import tempfile

import pytest

from tests.logs import changed_logs, networks, written
from tests.support import CHECKER, Answer, Expectations, answer, write

REFUSED = "NotLog Version Number Shape Truncated TrailingText TooLong".split()
REJECTED = "Header StepNumber WrongEvent OutsideBox NotCovered SplitTooLarge NotSingle WrongState".split()


def both_answers(program: str, net: str, text: str) -> tuple[Answer, Answer]:
    """What the program and the checker say of a log."""
    with tempfile.TemporaryDirectory() as room:
        write(room, {"net.toml": net.encode(), "log": text.encode()})
        files = ["net.toml", "log"]
        return answer([program, "replay", *files], room), answer([*CHECKER, *files], room)


def cause_of(found: Answer) -> str:
    """What is said of a log, without its line, or its horizon."""
    words = (found[1] + found[2]).decode().split()
    return " ".join(words[2:5] if words[:1] == ["psi:"] else words[:1])


@pytest.mark.slow
def test_changed_logs(program: str, expect: Expectations) -> None:
    with concurrent.futures.ThreadPoolExecutor(os.cpu_count()) as pool:
        found = pool.map(lambda numbered: written(program, *numbered), enumerate(networks()))
        changed = [*changed_logs([log for log in found if log])]
        answers = [*pool.map(lambda log: both_answers(program, *log[1:]), changed)]
    absent = {"accepted"} | {f"refused {number} {cause}" for number, cause in enumerate(REFUSED, 1)}
    absent |= {f"rejected {number} {cause}" for number, cause in enumerate(REJECTED, 1)}
    for (name, net, text), (ended, wanted) in zip(changed, answers):
        absent.discard(cause_of(ended))
        expect(ended == wanted, f"{name}: psi says {ended}, the checker {wanted}\n{net}\n{text}")
    expect(not absent, f"no log is {absent}")
