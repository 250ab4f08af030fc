"""Reports of many streams, drawn side by side on this machine in blocks."""

import os
from collections.abc import Sequence

from psi_tools.draw.blocks import Folder, is_as_written
from psi_tools.draw.program import Done, Program, Streams
from psi_tools.errors import PsiError
from psi_tools.io.files import read_file
from psi_tools.io.reports import Report, ReportError, read
from psi_tools.model.networks import Network
from psi_tools.stats.batches import REWARD, Batches, batches_of


def as_printed(data: bytes) -> bytes:
    """A report as psi prints it, where a spreadsheet has saved it with CR LF at the end of each line; else as it is."""
    ends = data.count(b"\r\n")
    every = ends == data.count(b"\n") == data.count(b"\r")
    return data.replace(b"\r\n", b"\n") if every else data


def read_report(data: bytes, path: object) -> Report:
    """The report in some bytes; raises PsiError with the file and the line where it is none."""
    try:
        report = read(data)
    except ReportError as refused:
        raise PsiError(f"{path} is no report: {refused}") from None
    if not report.samples:
        raise PsiError(f"{path} is a report of no sample")
    return report


def read_files(paths: list[str]) -> Batches:
    """The batches of some files, each a report of other streams."""
    reports: list[Report] = []
    files: dict[tuple[int, int], str] = {}
    texts: set[bytes] = set()
    for path in paths:
        data, known = read_file(path), os.stat(path)
        first = files.setdefault((known.st_dev, known.st_ino), path)
        if len(files) == len(reports):
            raise PsiError(f"{path} is the same file as {first}: each report is one of other streams")
        reports.append(read_report(as_printed(data), path))
        texts.add(data)
    found = batches_of(reports)
    varies = any(row.least != row.greatest for row in found.rows)
    if len(reports) > 1 and len(texts) == 1 and varies:
        raise PsiError("all reports are the same text: each is to be one of other streams")
    return found


def read_folder(path: str) -> tuple[Batches, int]:
    """The batches of a folder of psi-many, its blocks, and how many blocks there are to be."""
    folder = Folder(path)
    if not folder.is_bound() or not folder.blocks.is_dir():
        raise PsiError(f"{path} is no folder of psi-many")
    try:
        folder.read_bound()
        if folder.has_samples:
            raise PsiError(f"{path} is a folder of samples, as psi-many --states draws them, and has no reports")
        texts = {number: (max(same), max(same).read_bytes()) for number, same in folder.listed().items()}
    except (OSError, UnicodeDecodeError) as fault:
        raise PsiError(f"{path} can't be read: {fault}", 6) from None
    reports = []
    for number, (file, text) in sorted(texts.items()):
        if not is_as_written(file, text):
            raise PsiError(f"{file} isn't as it was written; psi-many draws it again")
        if not 0 <= number * folder.size < folder.count:
            raise PsiError(f"{file} is no block of this folder")
        reports.append(read_report(text, file))
        if reports[-1].samples != folder.block(number).count:
            raise PsiError(f"{file} isn't of as many samples as its block")
    if not reports:
        raise PsiError(f"{path} has no finished block yet")
    batches, net = batches_of(reports), folder.bound_network()
    return batches.of_network(net) if net else batches, -(-folder.count // folder.size)


def read_any(paths: list[str], net: Network | None = None) -> tuple[Batches, int]:
    """The batches of reports, or of a folder of psi-many, whose network may be given; and how many there are to be."""
    folders = [path for path in paths if os.path.isdir(path)]
    if folders and len(paths) > 1:
        raise PsiError("a folder of psi-many is given alone, or some reports are")
    batches, wanted = read_folder(folders[0]) if folders else (read_files(paths), len(paths))
    if net is None:
        return batches, wanted
    rows = [(row.kind, row.name) for row in batches.rows]
    if rows != [*(("", name) for name in net.queues), *((REWARD, name) for name in net.rewards)]:
        raise PsiError("the reports aren't of this network: its queues or rewards differ")
    return batches.of_network(net), wanted


def report_of(psi: Program, data: bytes, seed: int, block: Streams) -> bytes:
    """The text of the report of one block, as bytes."""
    return psi.ask("report", data, seed, *block).out.encode()


def reports_of(psi: Program, data: bytes, seed: int, blocks: Sequence[Streams], done: Done = None) -> list[Report]:
    """The reports of some blocks of one network; `done` is called with how many blocks are there."""
    texts = psi.all(lambda block: report_of(psi, data, seed, block), blocks, done)
    return [read_report(text, "what psi printed") for text in texts]
