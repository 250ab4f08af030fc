"""python3 -m gate.versions

Compares the version that CITATION.cff has, the one place where a release sets it, with

- the first release in CHANGELOG.md, and its date with the date of CITATION.cff;
- what `./psi --version` prints;
- `psi_tools.__version__`, which the tools print, the module `psi` has, and pyproject.toml names;
- the version of the package and the archive that make_package.py makes;
- a tag of the commit at hand, where it has one that begins with `v` and a digit.

Each place that has another version is printed; the exit status is 1 where there is one.
"""

import re
import tomllib
from collections.abc import Iterator

from gate import TOP, run
from release.make_package import printed_by, version_of
import tools.packaged  # noqa: F401
import psi_tools

VERSION = re.compile(r'^version: "(\d+\.\d+\.\d+)"$', re.M)
DATE = re.compile(r'^date-released: "(\d{4}-\d\d-\d\d)"$', re.M)
RELEASE = re.compile(r"^## (\d+\.\d+\.\d+), (\d{4}-\d\d-\d\d)$", re.M)


def text_of(name: str) -> str:
    return (TOP / name).read_text()


def places(version: str, date: str) -> Iterator[tuple[str, str, str]]:
    """Each place that has a version or its date: what it is, what it has, what it should have."""
    release = RELEASE.search(text_of("CHANGELOG.md"))
    assert release, "CHANGELOG.md has no release"
    yield "CHANGELOG.md", release[1], version
    yield "CHANGELOG.md, the date,", release[2], date
    yield "./psi", printed_by("./psi", "--version"), f"psi {version}"
    yield "python/psi_tools/__init__.py", psi_tools.__version__, version
    module = "import sys; sys.path.insert(0, 'python'); import psi; print(psi.__version__)"
    yield "the module psi", printed_by("/usr/bin/python3", "-c", module), version
    dynamic = tomllib.loads(text_of("python/pyproject.toml"))["tool"]["setuptools"]["dynamic"]
    yield "python/pyproject.toml", dynamic["version"]["attr"], "psi_tools.__version__"
    yield "the package", version_of()[0].partition("+git")[0], version
    yield "tools/psi-means", printed_by("tools/psi-means", "--version"), f"psi-means {version}"
    for tag in printed_by("git", "tag", "--points-at", "HEAD").split():
        if re.match(r"v\d", tag):
            yield "the tag of this commit", tag, f"v{version}"


def faults() -> list[str]:
    """The places that have another version, or its date."""
    citation = text_of("CITATION.cff")
    version, date = VERSION.search(citation), DATE.search(citation)
    assert version and date, "CITATION.cff has no version, or no date"
    return [
        f"{place} has {found}, and not {wanted}, as CITATION.cff"
        for place, found, wanted in places(version[1], date[1])
        if found != wanted
    ]


if __name__ == "__main__":
    run(faults)
