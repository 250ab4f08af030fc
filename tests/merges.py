"""Reports and files that are none, each with what psi_merge has to say of it, and changes of reports.

The lines that are wanted are written from docs/FORMATS.md, 'Reports, merged'.
"""

import contextlib
import random
import tempfile
from collections.abc import Mapping, Sequence

from psi_tools.io import reports as merge_reports
from tests.support import Answer, write

# Four samples of six are met. Of `a` the sum of four numbers from 1 to 4, both reached, is 7 to 13;
# of the reward that of four from -5 to 7 is -8 to 16.
BASE = """item,name,value
samples,-,6
met,-,4
uncoupled,-,2
horizon,2,1
horizon,8,3
sum,a,10
least,a,1
greatest,a,4
sum,b-2,0
least,b-2,0
greatest,b-2,0
reward-sum,a,-3
reward-least,a,-5
reward-greatest,a,7
"""
ONE = "item,name,value\nsamples,-,1\nmet,-,1\nuncoupled,-,0\nhorizon,1,1\n"
NONE = "item,name,value\nsamples,-,2\nmet,-,0\nuncoupled,-,2\n"


def changed(lines: Mapping[int, str | None]) -> str:
    """The base with other lines, which are numbered from 1; none is left out."""
    rows = BASE.splitlines(keepends=True)
    for line, row in lines.items():
        rows[line - 1] = row + "\n" if row is not None else ""
    return "".join(rows)


# Each queue has one number of customers, so what is met is one state, of one value of each reward.
ONE_STATE = {7: "sum,a,4", 8: "least,a,1", 9: "greatest,a,1"}
ONE_VALUE = {13: "reward-sum,a,-20", 14: "reward-least,a,-5", 15: "reward-greatest,a,-5"}
ONE_QUEUE = "sum,c,10\nleast,c,1\ngreatest,c,4\n"
TWO_VALUES = "reward-sum,c,1\nreward-least,c,0\nreward-greatest,c,1\n"


def sums(count: int, item: str = "sum") -> str:
    return "".join(f"{item},q{place},0\n" for place in range(count))


SAMPLES, ROW, TEXT = "refused 3 Samples line", "refused 1 Row line", "refused 2 Text line 0"
HUGE, MOST = 2**63, 2_097_120_000_000_000
LARGE = f"item,name,value\nsamples,-,{HUGE}\nmet,-,0\nuncoupled,-,{HUGE}\nsum,a,0\n"

# What a file is, its text, and what is said before its name; nothing where it is a report.
FILES = {
    "the base": (BASE, None),
    # sums
    "a sum as low as may be": (changed({7: "sum,a,7"}), None),
    "a sum as high as may be": (changed({7: "sum,a,13"}), None),
    "a sum that is too low": (changed({7: "sum,a,6"}), f"{SAMPLES} 7"),
    "a sum that is too high": (changed({7: "sum,a,14"}), f"{SAMPLES} 7"),
    "a sum of zeros that is none": (changed({10: "sum,b-2,1"}), f"{SAMPLES} 10"),
    "a reward's sum as low as may be": (changed({13: "reward-sum,a,-8"}), None),
    "a reward's sum as high as may be": (changed({13: "reward-sum,a,16"}), None),
    "a reward's sum that is too low": (changed({13: "reward-sum,a,-9"}), f"{SAMPLES} 13"),
    "a reward's sum that is too high": (changed({13: "reward-sum,a,17"}), f"{SAMPLES} 13"),
    "one sample": (f"{ONE}sum,a,5\nleast,a,5\ngreatest,a,5\n", None),
    "one sample with two values": (f"{ONE}sum,a,5\nleast,a,5\ngreatest,a,6\n", f"{SAMPLES} 6"),
    "one sample with another sum": (f"{ONE}sum,a,6\nleast,a,5\ngreatest,a,5\n", f"{SAMPLES} 6"),
    "a sum of no samples": (f"{NONE}sum,a,0\nsum,b,0\n", None),
    "a sum of no samples that isn't 0": (f"{NONE}sum,a,0\nsum,b,1\n", f"{SAMPLES} 6"),
    # extremes
    "a least below 0": (changed({8: "least,a,-1"}), f"{SAMPLES} 8"),
    "a greatest of 65,535": (changed({7: "sum,a,65538", 9: "greatest,a,65535"}), None),
    "a greatest of 65,536": (changed({7: "sum,a,65539", 9: "greatest,a,65536"}), f"{SAMPLES} 9"),
    "a least of 65,536": (changed({8: "least,a,65536"}), f"{SAMPLES} 8"),
    "a greatest below the least": (changed({9: "greatest,a,0"}), f"{SAMPLES} 9"),
    "a reward's greatest below its least": (changed({15: "reward-greatest,a,-6"}), f"{SAMPLES} 15"),
    "a reward as great as may be": (changed({13: f"reward-sum,a,{MOST - 15}", 15: f"reward-greatest,a,{MOST}"}), None),
    "a reward that is too great": (changed({15: f"reward-greatest,a,{MOST + 1}"}), f"{SAMPLES} 15"),
    "a reward that is too small": (changed({14: f"reward-least,a,{-MOST - 1}"}), f"{SAMPLES} 14"),
    # rewards of one state
    "one state": (changed(ONE_STATE | ONE_VALUE), None),
    "one state with two values of a reward": (changed(ONE_STATE), f"{SAMPLES} 15"),
    "one state with a reward's sum that is too low": (changed(ONE_STATE | {13: "reward-sum,a,-9"}), f"{SAMPLES} 13"),
    "one state with two values of a second reward": (changed(ONE_STATE | ONE_VALUE) + TWO_VALUES, f"{SAMPLES} 18"),
    "one state with two values and a queue": (changed(ONE_STATE) + ONE_QUEUE, f"{SAMPLES} 15"),
    "two states that differ in the last queue": (changed(ONE_STATE | {10: "sum,b-2,1", 12: "greatest,b-2,1"}), None),
    "a reward of two values behind one of one": (changed(ONE_VALUE) + TWO_VALUES, None),
    # horizons
    "a horizon of 3": (changed({5: "horizon,3,1"}), f"{SAMPLES} 5"),
    "a horizon of 0": (changed({5: "horizon,0,1"}), f"{SAMPLES} 5"),
    "a horizon of 12": (changed({6: "horizon,12,3"}), f"{SAMPLES} 6"),
    "a horizon of 2^22": (changed({6: "horizon,4194304,3"}), None),
    "a horizon of 2^23": (changed({6: "horizon,8388608,3"}), f"{SAMPLES} 6"),
    "a horizon twice": (changed({6: "horizon,2,3"}), f"{SAMPLES} 6"),
    "a horizon that none has": (changed({5: "horizon,2,0"}), f"{SAMPLES} 5"),
    "horizons of too many": (changed({6: "horizon,8,4"}), f"{SAMPLES} 6"),
    "horizons of too few": (changed({6: "horizon,8,2"}), f"{SAMPLES} 7"),
    "more met than there are": (changed({2: "samples,-,3", 4: "uncoupled,-,0"}), f"{SAMPLES} 3"),
    # names
    "two queues of one name": (changed({10: "sum,a,0", 11: "least,a,0", 12: "greatest,a,0"}), f"{SAMPLES} 10"),
    "two rewards of one name": (f"{NONE}sum,a,0\nreward-sum,b,0\nreward-sum,b,0\n", f"{SAMPLES} 7"),
    "a reward named as a queue": (f"{NONE}sum,a,0\nsum,b,0\nreward-sum,b,0\n", None),
    "32 queues": (NONE + sums(32), None),
    "33 queues": (NONE + sums(33), f"{SAMPLES} 37"),
    "64 rewards": (NONE + sums(1) + sums(64, "reward-sum"), None),
    "65 rewards": (NONE + sums(1) + sums(65, "reward-sum"), f"{SAMPLES} 70"),
    "no queue": (NONE, f"{SAMPLES} 5"),
    "no queue but a reward": (f"{NONE}reward-sum,a,0\n", f"{SAMPLES} 5"),
    "a queue behind a reward": (f"{NONE}sum,a,0\nreward-sum,a,0\nsum,b,0\n", f"{SAMPLES} 7"),
    "an extreme of another name": (changed({8: "least,b-2,1"}), f"{SAMPLES} 8"),
    "a queue without its greatest": (changed({9: None}), f"{SAMPLES} 9"),
    "a last figure that is missing": (changed({15: None}), f"{SAMPLES} 15"),
    "extremes of no samples": (f"{NONE}sum,a,0\nleast,a,0\n", f"{SAMPLES} 6"),
    "a name with a dot": (changed({10: "sum,b.2,0"}), f"{ROW} 10"),
    "a name of 32 letters": (f"{NONE}sum,{'n' * 32},0\n", None),
    "a name of 33 letters": (f"{NONE}sum,{'n' * 33},0\n", f"{ROW} 5"),
    "no name": (changed({7: "sum,,10"}), f"{ROW} 7"),
    # texts
    "an empty file": ("", TEXT),
    "no heading": (changed({1: None}), TEXT),
    "another heading": (changed({1: "item,name,values"}), TEXT),
    "a comment": (changed({1: "# a report"}), f"{ROW} 1"),
    "quotes": (changed({7: 'sum,"a",10'}), f"{ROW} 7"),
    "two fields": (changed({7: "sum,a"}), f"{ROW} 7"),
    "four fields": (changed({7: "sum,a,10,"}), f"{ROW} 7"),
    "semicolons": (changed({7: "sum;a;10"}), f"{ROW} 7"),
    "a space": (changed({7: "sum,a, 10"}), f"{ROW} 7"),
    "a carriage return": (changed({7: "sum,a,10\r"}), f"{ROW} 7"),
    "a number with a point": (changed({7: "sum,a,10.0"}), f"{ROW} 7"),
    "a number with a zero in front": (changed({7: "sum,a,010"}), TEXT),
    "a count of 2^64": (changed({2: f"samples,-,{2 * HUGE}"}), f"{ROW} 2"),
    "a sum of 10^37": (changed({7: f"sum,a,{10**37}"}), f"{ROW} 7"),
    "an unknown item": (changed({7: "mean,a,10"}), f"{ROW} 7"),
    "no uncoupled": (changed({4: None}), TEXT),
    "a wrong uncoupled": (changed({4: "uncoupled,-,3"}), TEXT),
    "a line that is empty": (changed({7: ""}), TEXT),
    "the last line cut": (BASE[:-1], TEXT),
    "a line more": (BASE + "\n", TEXT),
    "a report twice": (BASE + BASE, TEXT),
    "a file that is too long": (BASE + "\n" * 1_048_576, "refused 0 TooLong line 0"),
}

# Of two networks, with samples in one state, with none that is met, or as many as there may be.
REPORTS = [BASE] * 6 + [
    changed(ONE_STATE | ONE_VALUE),
    changed(ONE_STATE),
    changed({10: "sum,b,0", 11: "least,b,0", 12: "greatest,b,0"}),
    changed({13: None, 14: None, 15: None}),
    f"{NONE}sum,a,0\nsum,b-2,0\nreward-sum,a,0\n",
    f"{LARGE}sum,b-2,0\nreward-sum,a,0\n",
]

OTHER = "other network line"
# What two files are, and what is said before the second's name.
PAIRS = {
    "two reports": (BASE, BASE, None),
    "the second without a sample that is met": (BASE, f"{NONE}sum,a,0\nsum,b-2,0\nreward-sum,a,0\n", None),
    "another name": (BASE, changed({10: "sum,b,0", 11: "least,b,0", 12: "greatest,b,0"}), f"{OTHER} 10"),
    "a reward less": (BASE, changed({13: None, 14: None, 15: None}), f"{OTHER} 13"),
    "a reward more": (f"{NONE}sum,a,0\nsum,b-2,0\n", BASE, f"{OTHER} 13"),
    "a queue for a reward": (f"{NONE}sum,a,0\nreward-sum,b,0\n", f"{NONE}sum,a,0\nsum,b,0\n", f"{OTHER} 6"),
    "a wrong second file": (BASE, changed({7: "sum,a,14"}), f"{SAMPLES} 7"),
    "too many samples": (LARGE, LARGE, "too large line 2"),
}
# Each case by its name: the texts of its files, and what is said of the last, if anything.
CASES: dict[str, tuple[tuple[str, ...], str | None]] = {}
CASES |= {name: ((text,), message) for name, (text, message) in FILES.items()}
CASES |= {name: ((first, second), message) for name, (first, second, message) in PAIRS.items()}


def change(text: str, chance: random.Random) -> str:
    """The text of a report with one change or two."""
    rows = text.split("\n")
    for _ in range(chance.choice((1, 1, 2))):
        place = chance.randrange(len(rows))
        fields = rows[place].split(",")
        way = chance.randrange(8)
        if way == 0:
            rows.insert(place, rows[chance.randrange(len(rows))])
        elif way == 1 and len(rows) > 1:
            del rows[place]
        elif way == 2:
            other = chance.randrange(len(rows))
            rows[place], rows[other] = rows[other], rows[place]
        elif way == 3:
            cut = chance.randrange(len(rows[place]) + 1)
            rows[place] = rows[place][:cut] + chance.choice(",-0 9a\r") + rows[place][cut:]
        elif len(fields) == 3:
            field = chance.choice((1, 2, 2, 2))
            step = chance.choice((-1, 1, 1, -7, 8, 2**16, -(2**51), 10**36))
            if fields[field].lstrip("-").isdigit() and way < 7:
                fields[field] = str(int(fields[field]) + step)
            else:
                fields[field] = chance.choice(("a", "", "0"))
            rows[place] = ",".join(fields)
    return "\n".join(rows)


def files_of(texts: Sequence[str]) -> dict[str, bytes]:
    """The files 0.csv, 1.csv, .. with these texts."""
    return {f"{place}.csv": text.encode() for place, text in enumerate(texts)}


def wanted_of(files: Mapping[str, bytes]) -> Answer:
    """How psi_merge has to end on files, as merge_reports.py says: the status and both texts."""
    with tempfile.TemporaryDirectory() as folder, contextlib.chdir(folder):
        write(folder, files)
        try:
            return 0, merge_reports.merged(files).text(), b""
        except merge_reports.ReportError as refused:
            return refused.status, b"", f"psi_merge: {refused}\n".encode()


def some_texts(chance: random.Random) -> list[str]:
    """The texts of one to three files: reports of the base's network or another, changed or not."""
    count = chance.choice((1, 1, 2, 2, 3))
    texts = [chance.choice(REPORTS) for _ in range(count)]
    return [change(text, chance) if chance.random() < 0.5 else text for text in texts]
