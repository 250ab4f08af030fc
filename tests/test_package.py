"""The files that release/make_package.py makes of the built program are made twice, and compared; in a bare system
of the release that runs here, which debootstrap makes in a temporary folder, the archive runs before anything is
installed; and then the package, which dpkg installs there, by chroot.

It wants root, debootstrap, lintian and a mirror of Debian, $MIRROR or http://deb.debian.org/debian, and
takes some minutes.
"""

import os
import pathlib
import re
import shlex
import shutil
import sys

import pytest

from release import man_pages
from tests import documents
from tests.gallery import BLOCK
from tests.support import TOP, Expectations, TextAnswer, answer_as_text, printed_by, version_of_citation

pytestmark = [
    pytest.mark.slow,
    pytest.mark.release,
    pytest.mark.root,
    pytest.mark.needs("debootstrap", "unshare", "dpkg-deb", "lintian"),
]
NAME, LIBRARY, DOC = "psi-sampler", "usr/lib/psi-sampler", "usr/share/doc/psi-sampler"
MIRROR = os.environ.get("MIRROR", "http://deb.debian.org/debian")
# The documents name these tools of the repository, which the package hasn't.
NOT_PACKED = "tools/setup", "generate/pictures.py"
WIDTH, SECONDS = 160, 3_600
BOGUS = "bogus-mail-host,bogus-mail-host-in-debian-changelog"
PARTS = "NAME", "SYNOPSIS", "DESCRIPTION", "EXIT STATUS", "EXAMPLES", "FILES", "SEE ALSO"
# What a page of an installed package has nothing to do with.
OF_SOURCES = "./psi", "crates/", "rt run", "tools/setup", "checkout"
COMPLETIONS = {
    "psi s": "sample",
    "psi re": "reward replay report",
    "psi help cl": "closed",
    "psi --v": "--version",
    "psi check examples/first": "examples/first.toml",
    "psi reward examples/tandem-blocking.toml 0 0 ": "parts drill-full",
    "psi sample examples/first.toml 0 0 ": "log",
    "psi-plot co": "coupling",
    "psi-many x --sl": "--slurm",
    "psi-new erlang-s": "erlang-service",
    "psi-law examples/breakdowns.toml c": "cost",
}


class Bare(documents.Clone):
    """A bare system in which the package is installed; commands run in its folder /tour."""

    def __init__(self, root: pathlib.Path, psi: str) -> None:
        self.root, self.psi, self.top = root, psi, root / "tour"
        self.answers: dict[str, list[documents.Ran]] = {}
        self.top.mkdir()

    def execute(self, command: str) -> TextAnswer:
        # It has a /proc of its own, which ends with the command.
        call = ["unshare", "--mount", "--pid", "--fork", f"--mount-proc={self.root}/proc", "chroot"]
        call += [str(self.root), "/bin/sh", "-c", f"cd /tour && {command}"]
        environment = {"PATH": "/usr/sbin:/usr/bin:/sbin:/bin", "HOME": "/root", "LC_ALL": "C.UTF-8"}
        return answer_as_text(call, "/", SECONDS, env=environment)

    def has(self, path: str) -> bool:
        """Whether a file, a folder or a link is there."""
        return os.path.lexists(f"{self.root}{path}")

    def find(self, name: str) -> pathlib.Path:
        """What a command has written, else what the package has."""
        if name in NOT_PACKED:
            return TOP / name
        places = [self.top / name, self.root / DOC / name, self.root / LIBRARY / name]
        # A link leads elsewhere from outside of the system.
        return next((one for one in places if one.exists() and not one.is_symlink()), places[-1])


def made(psi: str, folder: pathlib.Path) -> list[pathlib.Path]:
    """The package, the archive and their sums, made in a folder."""
    folder.mkdir()
    made = printed_by(sys.executable, "-m", "release.make_package", psi, folder, seconds=SECONDS)
    return [*map(pathlib.Path, made.splitlines())]


def try_lintian(expect: Expectations, package: pathlib.Path) -> None:
    """Debian's checker of packages finds no error."""
    # The address of who runs this trial may be one that no mail reaches.
    call = ["lintian", "--allow-root", "--suppress-tags", BOGUS, package]
    status, out, err = answer_as_text(call, TOP, SECONDS)
    errors = [line for line in out.splitlines() if line.startswith("E:")]
    expect(not errors and status in (0, 2), f"lintian says {errors or err}")


def try_archive(expect: Expectations, bare: Bare, archive: pathlib.Path, sums: pathlib.Path) -> None:
    """Its sum is right, and it runs where nothing is installed, and where its Dockerfile puts it."""
    for file in (archive, sums):
        shutil.copy(file, bare.top)
    status, out, error = bare.execute(f"sha256sum --check --ignore-missing {sums.name}")
    expect((status, out) == (0, f"{archive.name}: OK\n"), f"sha256sum says {out} {error}")
    # It has no xz yet: what unpacks it is this system's own.
    printed_by("tar", "-xJf", archive, "-C", bare.root / "opt")
    folder = f"/opt/{archive.name.partition('-linux')[0]}"
    for command, more in (("check", ""), ("sample", " 0 0"), ("report", " 0 0 100")):
        call = f"{command} examples/tandem-blocking.toml{more}"
        found = bare.execute(f"cd {folder} && bin/psi {call}")
        own = answer_as_text([bare.psi, *call.split()], TOP)
        expect(found[:2] == own[:2], f"{call} of the archive: {found}")
    try_front(expect, bare, f"{folder}/bin/psi")
    page = bare.has(f"{folder}/share/man/man1/psi.1.gz")
    expect(page and bare.has(f"{folder}/Dockerfile"), "the archive lacks a file")
    try_merge(expect, bare, f"{folder}/bin/", f"{folder}/examples")
    try_dockerfile(expect, bare, folder)
    for file in (archive, sums):
        (bare.top / file.name).unlink()
    shutil.rmtree(f"{bare.root}{folder}")


def try_front(expect: Expectations, bare: Bare, psi: str) -> None:
    """What psi answers itself, and that it hands on other arguments."""
    answers = {words: bare.execute(f"{psi} {words}") for words in ("--help", "-h", "help sample")}
    for words, (status, out, error) in answers.items():
        is_whole = "psi sample NET SEED STREAM" in out or "  sample NET SEED STREAM" in out
        expect((status, is_whole, error) == (0, True, ""), f"{psi} {words}: {status} {error}")
    expect("psi --version" in answers["--help"][1], f"{psi} --help has no part on itself")
    answer = bare.execute(f"{psi} --version")
    expect(answer == (0, f"psi {version_of_citation()}\n", ""), f"{psi} --version: {answer}")
    for words in ("nonsense", "--build", "--helpme", "-", ""):
        answer = bare.execute(f"{psi} {words}")
        expect(answer == (2, "", "psi: usage word 1\n"), f"{psi} {words}: {answer}")


def try_dockerfile(expect: Expectations, bare: Bare, folder: str) -> None:
    """What docker would make of the archive: the last stage's copies in a bare system, and the
    command that docs/RELEASING.md shows. A bare system stands for the one that docker takes."""
    text = (bare.root / folder[1:] / "Dockerfile").read_text()
    copies = re.findall(r"^COPY --from=unpacked /opt/psi/(\S+) (\S+)$", text, re.M)
    folders = " ".join({target.rpartition("/")[0] or "/" for _, target in copies})
    entry = re.search(r'^ENTRYPOINT \["(\S+)"\]$', text, re.M)
    shown = re.search(r"^docker run --rm psi (.*)$", (TOP / "docs/RELEASING.md").read_text(), re.M)
    expect(len(copies) == 4 and entry and shown, "the Dockerfile has another form")
    if entry and shown:
        made = " && ".join(f"cp -r {folder}/{source} {target}" for source, target in copies)
        made = f"mkdir -p {folders} && {made} && cd /"
        status, out, error = bare.execute(f"{made} && {entry[1]} {shown[1]}")
        expect((status, out) == (0, "met 64\nstate 3,2,1\n"), f"docker's: {status} {error}")
        try_front(expect, bare, entry[1])
        bare.execute("rm -rf " + " ".join(target for _, target in copies))


def try_merge(expect: Expectations, bare: Bare, front: str, examples: str) -> None:
    """psi-merge makes of two reports the one of one process, and refuses what is no report."""
    merger = f"{front}psi-merge"
    if not (bare.has(merger) if front else bare.has("/usr/bin/psi-merge")):
        print("not tried: psi-merge, which the files don't have")
        return
    parts = (
        (name, f"{examples}/overflow.toml 3 {words}")
        for name, words in (("first", "0 500"), ("second", "500 700"), ("both", "0 1200"))
    )
    made = " && ".join(f"{front}psi report {words} >/tmp/{name}" for name, words in parts)
    status, _, error = bare.execute(f"{made} && {merger} /tmp/first /tmp/second | cmp - /tmp/both")
    expect(status == 0, f"{merger} makes another report: {error}")
    answer = bare.execute(f"{merger} /tmp/first /etc/os-release")
    line = "psi_merge: refused 1 Row line 1 /etc/os-release\n"
    expect(answer == (3, "", line), f"{merger} on what is no report: {answer}")


def bare_system(root: pathlib.Path, mirror: str) -> None:
    """Makes a bare system of the release that runs here."""
    system = pathlib.Path("/etc/os-release").read_text()
    release = re.search(r"^VERSION_CODENAME=(\w+)", system, re.M)
    assert release, system
    printed_by("debootstrap", "--variant=minbase", release[1], root, mirror, seconds=SECONDS)
    for name in ("resolv.conf", "hosts"):
        shutil.copy(f"/etc/{name}", root / "etc" / name)


def install(bare: Bare, package: pathlib.Path) -> tuple[int, str]:
    """Installs the package by dpkg, and by apt-get what it depends on; and what shows man pages."""
    shutil.copy(package, bare.root / "tmp")
    apt = "DEBIAN_FRONTEND=noninteractive apt-get -qq -y --no-install-recommends"
    bare.execute(f"dpkg --unpack /tmp/{package.name}")
    status, _, error = bare.execute(f"{apt} -f install && {apt} install man-db groff-base")
    bare.execute(f"ln -s /{LIBRARY}/* .")
    return status, error


def try_tour(expect: Expectations, bare: Bare) -> None:
    """Each command, each text and each picture of docs/TOUR.md is as documents.py compares them."""
    name = "docs/TOUR.md"
    expect(bare.read(name) == (TOP / name).read_bytes(), "the package has another tour")
    document = documents.Document(name, bare.read(name).decode(), expect)
    documents.try_document(document, bare, is_packed=True)


def try_many(expect: Expectations, bare: Bare) -> None:
    """The report of many streams is that of one process."""
    call = "examples/tandem-blocking.toml 5 7 3000"
    one, many = bare.execute(f"psi report {call}"), bare.execute(f"psi-many {call} --block 100")
    expect(one[0] == 0 and one[:2] == many[:2], f"psi-many says {many}")
    if not bare.has("/usr/bin/psi-merge"):
        return
    # The program that merges is one that tells of it, for once.
    wrapped = "printf '#!/bin/sh\\necho x >>/tmp/merged\\nexec /tmp/kept \"$@\"\\n'"
    bare.execute(f"mv /usr/bin/psi-merge /tmp/kept && {wrapped} >/usr/bin/psi-merge")
    many = bare.execute(f"chmod 755 /usr/bin/psi-merge && psi-many {call} --block 100")
    expect(one[:2] == many[:2], f"psi-many with psi-merge says {many}")
    expect(bare.has("/tmp/merged"), "psi-many doesn't merge by psi-merge")
    bare.execute("mv /tmp/kept /usr/bin/psi-merge")


def try_pages(expect: Expectations, bare: Bare) -> None:
    """The pages of all commands have their parts, and that of the formats each part of the guide,
    and each of its lines of code."""
    pages = {}
    names = [file.stem for file in sorted(man_pages.SOURCES.glob("*.md"))]
    for name in (*names, "psi-file.5"):
        page, _, section = name.rpartition(".")
        status, out, error = bare.execute(f"MANWIDTH={WIDTH} man --warnings {section} {page}")
        expect(status == 0 and out and not error, f"man {name}: {status} {error}")
        for source in OF_SOURCES:
            expect(source not in out, f"man {name} says {source}")
        pages[name] = out.splitlines()
    for name in names:
        absent = [part for part in PARTS if part not in pages[name]]
        expect(not absent, f"man {name} has no part {absent}")
    commands = bare.execute("cd /usr/bin && ls psi psi-*")[1].split()
    expect({f"{name}.1" for name in commands} <= {*names}, f"a page lacks of {commands}")
    guide, lines = bare.read("docs/FORMATS.md").decode(), pages["psi-file.5"]
    for heading in re.findall(r"^## (.*)$", guide, re.M):
        expect(heading.replace("`", "") in lines, f"no man page has the part {heading}")
    shown = {line.strip().lstrip("•").strip() for line in lines}
    for block in BLOCK.findall(guide):
        for line in block[1].splitlines():
            wanted = man_pages.of_package(line).strip()
            expect(not wanted or wanted in shown, f"no man page has the line {line}")


def try_examples(expect: Expectations, bare: Bare) -> None:
    """The examples of each page run as they stand there, but for those on other machines."""
    for file in sorted(man_pages.SOURCES.glob("*.md")):
        part = file.read_text().partition("\n## EXAMPLES\n")[2].partition("\n## ")[0]
        blocks = [found[1] for found in BLOCK.findall(part)]
        lines = "".join(block for block in blocks if not re.search("--hosts|--slurm", block))
        status, out, error = bare.execute(f"set -e\n{lines}")
        # What psi-where is told is refused.
        wanted = 3 if file.stem == "psi-where.1" else 0
        expect(bool(lines) and status == wanted, f"{file.stem}: {status} {out} {error}")


def try_completion(expect: Expectations, bare: Bare) -> None:
    for line, wanted in COMPLETIONS.items():
        words = line.split(" ")
        script = (
            f". /usr/share/bash-completion/completions/{words[0]}\n"
            f"COMP_WORDS=({' '.join(map(shlex.quote, words))}) COMP_CWORD={len(words) - 1}\n"
            f"_{words[0].replace('-', '_')} && echo \"${{COMPREPLY[@]}}\""
        )
        _, out, error = bare.execute(f"bash -c {shlex.quote(script)}")
        expect(sorted(out.split()) == sorted(wanted.split()), f"{line}: {out} {error}")


def try_dpkg(expect: Expectations, bare: Bare, version: str) -> None:
    """What dpkg knows of it; and that it can be removed."""
    status, out, _ = bare.execute(f"dpkg-query -W -f '${{db:Status-Status}} ${{Version}}' {NAME}")
    expect((status, out) == (0, f"installed {version}"), f"dpkg says {out}")
    status, out, error = bare.execute(f"dpkg --verify {NAME}")
    expect((status, out) == (0, ""), f"dpkg --verify says {out} {error}")
    files = bare.execute(f"dpkg -L {NAME}")[1].splitlines()
    folders = {NAME, "psi", "psi-many", "psi-plot", "psi.1.gz"}
    own = [file for file in files if folders & {*file.split("/")}]
    expect(len(own) > 60 and all(map(bare.has, own)), f"{len(own)} files are installed")
    status = bare.execute(f"dpkg --purge {NAME}")[0]
    left = [file for file in own if bare.has(file)]
    expect(status == 0 and not left, f"when it is removed it leaves {left}")


def test_package(program: str, expect: Expectations, tmp_path: pathlib.Path) -> None:
    files, again = (made(program, tmp_path / name) for name in ("first", "second"))
    for one, other in zip(files, again):
        expect(one.read_bytes() == other.read_bytes(), f"made again, {one.name} is another file")
    package, archive, sums = files
    try_lintian(expect, package)
    root = tmp_path / "bare"
    bare_system(root, MIRROR)
    bare = Bare(root, program)
    try_archive(expect, bare, archive, sums)
    status, error = install(bare, package)
    expect(status == 0, f"it can't be installed: {error}")
    try_front(expect, bare, "psi")
    for trial in (try_tour, try_many, try_pages, try_examples, try_completion):
        trial(expect, bare)
    try_merge(expect, bare, "", f"/{DOC}/examples")
    try_dpkg(expect, bare, package.name.split("_")[1])
