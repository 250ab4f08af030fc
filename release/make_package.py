"""/usr/bin/python3 -m release.make_package [PSI [FOLDER]]

Makes of the built program in a folder, the working folder where none is given, and prints their
paths:

- a Debian package, psi-sampler_VERSION_amd64.deb;
- an archive for any Linux on x86-64 whose C library, glibc, is of a version that its name has or
  later, psi-sampler-VERSION-linux-x86-64-glibc-GLIBC.tar.xz;
- SHA256SUMS of both, for `sha256sum --check`.

PSI is the built program, crates/psi/out/psi where it isn't given; psi_merge, psi_states and psi_paths
are packed too, as psi-merge, psi-states and psi-paths, where they are built beside it or in their crates. Both have the
tools psi-many, psi-plot and those of docs/TOOLS.md and what they need, the module psi for Python, man
pages made by man_pages.py, completion for bash, zsh and fish, the gallery, the documents, and the
licences. The programs are stripped of their symbols. It wants git, dpkg-deb, strip, and what
tools/setup installs. What to do with them is said in docs/RELEASING.md. DEBEMAIL is the maintainer's
address; where it isn't set it is that of the commit.

The version is that of CITATION.cff, with the day and the commit after it where this isn't tagged
as `vVERSION`. The same commit and the same program give the same files, byte by byte.
"""

import email.utils
import gzip
import hashlib
import os
import pathlib
import re
import shutil
import subprocess
import sys
import tempfile
import time

import tools.packaged  # noqa: F401
from psi_tools.cli.completion import completion
from psi_tools.cli.entry import NAMES
from psi_tools.draw.program import companion_of
from release import man_pages

TOP = pathlib.Path(__file__).resolve().parent.parent
# What the package has beside what stands elsewhere, some of it with places for what is known when it is made.
FILES = TOP / "release/package_files"
# The built program, in a checkout and in the folder of the package's library. What stands on the
# PATH there is the script tools/command/installed.
BUILT = "crates/psi/out/psi"
NAME = "psi-sampler"
# The other proved programs, each with its crate, that are packed where they are built.
OTHERS = {"psi-merge": "psi_merge", "psi-states": "psi_states", "psi-paths": "psi_paths"}
SCRIPTS = "packaged", "merge_reports", "check_log", "check_interval", "mean_values"
TOOLS = *(f"{name}.py" for name in SCRIPTS), "command", *(f"psi-{name}" for name in NAMES)
# The folders of python/ that are packed.
MODULES = "psi", "psi_tools"
DOCUMENTS = "README.md", "CITATION.cff", "SECURITY.md", "PERFORMANCE.md", "docs"
DEPENDS = "python3 (>= 3.11), python3-numpy, python3-scipy, python3-pandas, python3-matplotlib, parallel, graphviz"
# An archive in which nothing depends on the time, the user or the order of the disk.
TAR = "tar --sort=name --owner=0 --group=0 --numeric-owner --format=posix".split()
PAX = "--pax-option=exthdr.name=%d/PaxHeaders/%f,delete=atime,delete=ctime"


def printed_by(*words: str) -> str:
    """What a command prints, at the top."""
    return subprocess.check_output(words, cwd=TOP, text=True).strip()


def version_of() -> tuple[str, int]:
    """The version, and the second at which it was committed."""
    found = re.search(r'^version: "([^"]*)"', (TOP / "CITATION.cff").read_text(), re.M)
    assert found, "CITATION.cff has no version"
    version, second = found[1], int(printed_by("git", "log", "-1", "--format=%ct"))
    if f"v{version}" not in printed_by("git", "tag", "--points-at", "HEAD").split():
        day = time.strftime("%Y%m%d", time.gmtime(second))
        version += f"+git{day}.{printed_by('git', 'rev-parse', '--short=7', 'HEAD')}"
    return version, second


def maintainer() -> str:
    """Who answers for the package: what DEBFULLNAME and DEBEMAIL say, as for Debian's own tools, or
    else whoever made the commit."""
    name = os.environ.get("DEBFULLNAME", "The PSI authors")
    return f"{name} <{os.environ.get('DEBEMAIL') or printed_by('git', 'log', '-1', '--format=%ce')}>"


def placed(target: pathlib.Path) -> pathlib.Path:
    """The path of a file that is to be made, whose folder is there."""
    target.parent.mkdir(parents=True, exist_ok=True)
    return target


def copy(source: pathlib.Path, target: pathlib.Path, mode: int = 0o644) -> None:
    shutil.copyfile(source, placed(target))
    target.chmod(mode)


def pack(target: pathlib.Path, text: str) -> None:
    """Writes a text that is compressed, without a name or a time in it."""
    placed(target).write_bytes(gzip.compress(text.encode(), 9, mtime=0))


def link(target: pathlib.Path, path: pathlib.Path) -> None:
    placed(path).symlink_to(os.path.relpath(target, path.parent))


def tracked(name: str) -> list[str]:
    """The files of the repository below a name."""
    return printed_by("git", "ls-files", name).splitlines()


def fill_library(root: pathlib.Path, programs: dict[str, pathlib.Path]) -> None:
    """The tools, and a folder that has what the documents' commands name by a path."""
    library = root / "usr/lib" / NAME
    for name in (file for tool in TOOLS for file in tracked(f"tools/{tool}")):
        is_run = os.access(TOP / name, os.X_OK)
        copy(TOP / name, library / name, 0o755 if is_run else 0o644)
    for name in (file for module in MODULES for file in tracked(f"python/{module}")):
        copy(TOP / name, library / name)
    for module in MODULES:
        link(library / "python" / module, root / "usr/lib/python3/dist-packages" / module)
    for name in NAMES:
        link(library / f"tools/psi-{name}", root / f"usr/bin/psi-{name}")
    (library / "tools/command/installed").rename(root / "usr/bin/psi")
    link(root / "usr/bin/psi", library / "psi")
    copy(programs["psi"], library / BUILT, 0o755)
    for name, crate in OTHERS.items():
        if built := programs.get(name):
            copy(built, root / "usr/bin" / name, 0o755)
            link(root / "usr/bin" / name, library / "crates" / crate / "out" / crate)
    link(root / "usr/share/doc" / NAME / "examples", library / "examples")


def fill_documents(root: pathlib.Path, version: str, second: int) -> None:
    """The documents, the gallery, the licences, man pages and completion."""
    share = root / "usr/share"
    doc, day = share / "doc" / NAME, time.strftime("%Y-%m-%d", time.gmtime(second))
    for name in (file for document in (*DOCUMENTS, "examples") for file in tracked(document)):
        copy(TOP / name, doc / name)
    copy(FILES / "README.Debian", doc / "README.Debian")
    pack(doc / "changelog.gz", (TOP / "CHANGELOG.md").read_text())
    stamp = email.utils.formatdate(second)
    changes = (FILES / "changelog.Debian").read_text().format(name=NAME, version=version, by=maintainer(), stamp=stamp)
    pack(doc / "changelog.Debian.gz", changes)
    mit = (TOP / "LICENSE-MIT").read_text().splitlines()[4:]
    terms = "".join(f" {line or '.'}\n" for line in mit)
    placed(doc / "copyright").write_text((FILES / "copyright").read_text() + terms)
    for name, text in man_pages.pages(TOP, day):
        pack(share / f"man/man{name[-1]}" / f"{name}.gz", text)
    for file in tracked("release/package_files/lintian-overrides"):
        copy(TOP / file, share / "lintian/overrides" / NAME)
    copy(FILES / "completion.bash", share / "bash-completion/completions/psi")
    copy(FILES / "completion.zsh", share / "zsh/vendor-completions/_psi")
    copy(FILES / "completion.fish", share / "fish/vendor_completions.d/psi.fish")
    for name in NAMES:
        placed(share / f"bash-completion/completions/psi-{name}").write_text(completion("bash", name))
        placed(share / f"zsh/vendor-completions/_psi-{name}").write_text(completion("zsh", name))
        placed(share / f"fish/vendor_completions.d/psi-{name}.fish").write_text(completion("fish", name))


def glibc_of(program: pathlib.Path) -> str:
    """The least version of glibc that a program takes."""
    versions = re.findall(rb"GLIBC_(\d+)\.(\d+)", program.read_bytes())
    return "{}.{}".format(*max(tuple(map(int, pair)) for pair in versions))


def fill_control(root: pathlib.Path, version: str, program: pathlib.Path) -> None:
    """What dpkg reads: the fields, the digests of all files, and what is done before a removal."""
    files = sorted(file for file in root.rglob("*") if file.is_file() and not file.is_symlink())
    size = sum(-(-file.stat().st_size // 1024) for file in files)
    depends = f"libc6 (>= {glibc_of(program)}), {DEPENDS}"
    sums = subprocess.check_output(["md5sum", *(file.relative_to(root) for file in files)], cwd=root, text=True)
    control = (FILES / "control").read_text()
    control = control.format(name=NAME, version=version, size=size, by=maintainer(), depends=depends)
    placed(root / "DEBIAN/control").write_text(control)
    (root / "DEBIAN/md5sums").write_text(sums)
    copy(FILES / "prerm", root / "DEBIAN/prerm", 0o755)


def make_package(
    room: pathlib.Path, folder: pathlib.Path, programs: dict[str, pathlib.Path], version: str, second: int
) -> pathlib.Path:
    root, package = room / NAME, folder / f"{NAME}_{version}_amd64.deb"
    root.mkdir()
    fill_library(root, programs)
    fill_documents(root, version, second)
    fill_control(root, version, programs["psi"])
    environment = {**os.environ, "SOURCE_DATE_EPOCH": str(second)}
    call = ["dpkg-deb", "--root-owner-group", "-Zxz", "--build", str(root), str(package)]
    subprocess.run(call, check=True, stdout=subprocess.DEVNULL, env=environment)
    return package


def make_archive(
    room: pathlib.Path, folder: pathlib.Path, programs: dict[str, pathlib.Path], version: str, second: int
) -> pathlib.Path:
    """The archive. Its folder is that of the package without /usr, and has links within it alone."""
    top = f"{NAME}-{version}"
    archive = folder / f"{top}-linux-x86-64-glibc-{glibc_of(programs['psi'])}.tar.xz"
    usr = room / NAME / "usr"
    shutil.rmtree(usr / "lib/python3")
    copy(FILES / "Dockerfile", usr / "Dockerfile")
    for name in ("README.md", "LICENSE-APACHE", "LICENSE-MIT"):
        copy(TOP / name, usr / name)
    link(usr / "share/doc" / NAME / "examples", usr / "examples")
    usr.rename(room / top)
    subprocess.run([*TAR, f"--mtime=@{second}", PAX, "-cJf", archive, top], cwd=room, check=True)
    return archive


def stripped(program: pathlib.Path, room: pathlib.Path, name: str) -> pathlib.Path:
    """A copy of a program without its symbols."""
    copy(program, room / name, 0o755)
    subprocess.run(["strip", "--strip-all", "-R", ".comment", room / name], check=True)
    return room / name


def main(words: list[str]) -> int:
    program = pathlib.Path(words[0] if words else TOP / BUILT).absolute()
    folder = pathlib.Path(words[1] if len(words) > 1 else ".").resolve()
    if len(words) > 2 or not os.access(program, os.X_OK) or not folder.is_dir():
        print("make_package: [PSI [FOLDER]], where PSI is the built program", file=sys.stderr)
        return 2
    version, second = version_of()
    os.umask(0o022)
    with tempfile.TemporaryDirectory() as name:
        room = pathlib.Path(name)
        found = [("psi", str(program)), *((name, companion_of(str(program), crate)) for name, crate in OTHERS.items())]
        programs = {name: stripped(pathlib.Path(built), room, name) for name, built in found if built}
        made = [make(room, folder, programs, version, second) for make in (make_package, make_archive)]
    digests = [hashlib.sha256(file.read_bytes()).hexdigest() for file in made]
    sums = folder / "SHA256SUMS"
    sums.write_text("".join(f"{digest}  {file.name}\n" for digest, file in zip(digests, made)))
    print(*made, sums, sep="\n")
    return 0


if __name__ == "__main__":
    sys.exit(main(sys.argv[1:]))
