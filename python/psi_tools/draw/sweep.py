"""Designs that are drawn side by side in folders of blocks, and their differences: the folder of psi-sweep has one for
each design, whose blocks all have one size."""

import dataclasses
import os
import pathlib
import re
from typing import Any

from psi_tools.draw import blocks
from psi_tools.draw.program import Program, size_of
from psi_tools.draw.reports import report_of
from psi_tools.errors import PsiError, reason
from psi_tools.io.reports import Report
from psi_tools.io.tables import Record
from psi_tools.io.terminal import Progress
from psi_tools.model.designs import Design
from psi_tools.stats.batches import REWARD, Batches, batches_of
from psi_tools.stats.intervals import NO_MEAN, Mean, difference_of_batches

# The file that marks a folder as psi-sweep's own, and the folder of a design.
MARK, DESIGN = "sweep", re.compile(r"[0-9a-f]{16}")


def opened(folder: pathlib.Path, seed: int, first: int, fitting: int) -> tuple[pathlib.Path, int]:
    """Makes a folder for the designs of one seed and first stream, or looks at it before anything is written. Gives its
    path, and the size of its blocks; `fitting` is that of a new one. The size stays as it is, since blocks of all
    designs are compared: so a greater count, or a further design, draws only what is new."""
    path = blocks.resolved(folder)
    try:
        entries = [*os.scandir(path)] if path.exists() else []
    except OSError as fault:
        raise PsiError(f"{path} is no folder: {reason(fault)}") from None
    blocks.refuse_links(entries, "psi-sweep")
    names = {entry.name for entry in entries if not entry.name.startswith("part.")}
    wanted = {"seed": str(seed), "first": str(first), "block": str(fitting)}
    mark = blocks.read_sealed(path / MARK) if MARK in names else None
    bound = mark if mark and "block" in mark else bound_by_designs(path, names - {MARK}, wanted)
    for key in ("seed", "first"):
        if bound[key] != wanted[key]:
            raise PsiError(f"the blocks in {path} are of another call: {key} {bound[key]}, not {wanted[key]}")
    with blocks.writing(path):
        path.mkdir(parents=True, exist_ok=True)
        # What a full disk or a kill has left.
        for part in path.glob("part.*"):
            part.unlink(missing_ok=True)
    if mark is None:
        # Where the mark is lost, the folders of the designs have the same.
        lines = "".join(f"{key} {bound[key]}\n" for key in wanted)
        blocks.write_whole(path / MARK, blocks.sealed(lines).encode(), is_synced=False)
    return path, int(bound["block"])


def bound_by_designs(path: pathlib.Path, names: set[str], wanted: dict[str, str]) -> dict[str, str]:
    """What the folders of all designs are bound to: one seed, first stream and size; as wanted where there are none."""
    if any(not DESIGN.fullmatch(name) for name in names):
        raise PsiError(f"{path} isn't a folder of psi-sweep, and isn't empty")
    known = filter(None, (blocks.bound_in(path / name)[0] for name in sorted(names)))
    found = [{key: bound[key] for key in wanted} for bound in known] or [wanted]
    if any(each != found[0] for each in found):
        raise PsiError(f"{path} has blocks of several sizes; say another --folder")
    return found[0]


@dataclasses.dataclass
class Comparison:
    """What is compared: the designs, what each is called, and the columns in which they differ; `why` the same words
    don't choose the same events, by how much rates are multiplied, and which rewards are left out."""

    columns: list[str]
    designs: list[Design]
    labels: list[str]
    base: int
    why: str | None = None
    scale: int = 1
    short: list[str] = dataclasses.field(default_factory=list)


def draw_designs(
    psi: Program, path: pathlib.Path, designs: list[Design], numbers: dict[str, Any], command: str
) -> list[Batches]:
    """Draws what isn't finished, each design in a folder of its own in one folder, and gives the batches of each."""
    path, size = opened(path, numbers["seed"], numbers["first"], size_of(numbers["count"]))
    folders = [bound_folder(path, design.net.data, numbers, size) for design in designs]
    waiting: list[tuple[blocks.Folder, blocks.Block]] = []
    for folder in folders:
        folder.tidy()
        finished = folder.finished()
        waiting += [(folder, block) for block in folder.all_blocks() if block.number not in finished]
    # The first blocks of all designs come first, so a call that is stopped has whole ones.
    waiting.sort(key=lambda each: each[1].number)
    with Progress(command, len(waiting), "blocks") as progress:
        psi.all(lambda each: keep(psi, *each), waiting, progress.show)
    found = []
    for folder, design in zip(folders, designs):
        reports: dict[int, Report] = {}
        finished = folder.finished(reports)
        found.append(batches_of([reports[number] for number in finished]).of_network(design.net))
    return found


def bound_folder(path: pathlib.Path, data: bytes, numbers: dict[str, Any], size: int) -> blocks.Folder:
    """The folder of a design, which is bound to its network and to the size of all blocks."""
    folder = blocks.Folder(path / blocks.digest_of(data)[:16])
    folder.lock()
    folder.bind(data, numbers, None, size)
    if folder.size != size:
        raise PsiError(f"{folder.path} has blocks of {folder.size} streams, not of {size}")
    return folder


def keep(psi: Program, folder: blocks.Folder, block: blocks.Block) -> None:
    """Draws a block and keeps it."""
    text = report_of(psi, folder.net.read_bytes(), folder.seed, (block.first, block.count))
    if not folder.accept(block.number, text):
        raise PsiError(f"psi printed no whole report of the streams from {block.first} on", 1)


def records_of(
    compared: Comparison, batches: list[Batches], names: list[str] | None
) -> list[tuple[Record, Mean, Mean]]:
    """For each queue and reward and each design a record, its mean, and its difference to the base; queues first."""
    records, first = [], batches[compared.base]
    rows = dict.fromkeys((row.kind, row.name) for own in batches for row in own.rows if not names or row.name in names)
    for kind, name in sorted(rows, key=lambda row: row[0] == REWARD):
        for design, own in zip(compared.designs, batches):
            mean = own.mean(own.find(kind, name))
            one, other = (each.sums(each.find(kind, name)) for each in (own, first))
            gap = difference_of_batches(one, other) if one and other else NO_MEAN
            record: Record = {column: str(value) for column, value in zip(compared.columns, design.values)}
            record |= {"item": f"{kind}mean", "name": name}
            record |= {"mean": mean.mean, "half": mean.half, "low": mean.low, "high": mean.high}
            record |= {"difference": gap.mean, "difference_half": gap.half}
            record |= {"difference_low": gap.low, "difference_high": gap.high}
            record |= {"samples": sum(own.samples), "uncoupled": own.uncoupled}
            records.append((record, mean, gap))
    return records


def notes_of(compared: Comparison, batches: list[Batches]) -> list[str]:
    """What has to be known before a mean is read."""
    notes = [
        f"NOT COUPLED: {own.uncoupled:,} of {sum(own.samples):,} streams of {label}; its means are "
        "of the others, and biased; the intervals hold what they may change"
        for label, own in zip(compared.labels, batches)
        if own.uncoupled
    ]
    if compared.why:
        notes.append(f"the same random words don't choose the same events: {compared.why}")
    if compared.short:
        notes.append(f"left out, as their tables are too short for these capacities: {', '.join(compared.short)}")
    return notes


def carried_in(compared: Comparison, batches: list[Batches], names: list[str] | None) -> list[str]:
    """The lines on means that few samples carry."""
    return [f"{label}: {line}" for label, own in zip(compared.labels, batches) for line in own.carried(names)]
