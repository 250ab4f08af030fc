"""README.md, SECURITY.md, the guides and the gallery show what comes (documents.py), and all that the
cases, the gallery and the guides show is what `tools/self-test` finds too.
"""

import pytest

from tests.documents import DOCUMENTS, Clone, Document, try_document, try_links, unnoticed_changes
from tests.support import TOOLS, TOP, Expectations, printed_by

PAGES = sorted(str(file.relative_to(TOP)) for file in (*TOP.glob("*.md"), *TOP.glob("docs/*.md")))


@pytest.fixture(scope="module")
def clone(program: str, tmp_path_factory: pytest.TempPathFactory) -> Clone:
    """A fresh clone of what is committed, in which the program is built."""
    return Clone(program, tmp_path_factory.mktemp("clone"))


@pytest.mark.slow
def test_self_test(program: str) -> None:
    lines = printed_by(TOOLS / "self-test", program, seconds=1_200).splitlines()
    assert lines[-1].endswith(" passed, 0 failed") and len(lines) == 5


@pytest.mark.slow
@pytest.mark.parametrize("name", DOCUMENTS)
def test_a_document(expect: Expectations, clone: Clone, name: str) -> None:
    try_document(Document(name, clone.read(name).decode(), expect), clone)


@pytest.mark.parametrize("name", [name for name in PAGES if name not in DOCUMENTS])
def test_links_of_a_page(expect: Expectations, clone: Clone, name: str) -> None:
    try_links(Document(name, clone.read(name).decode(), expect), clone)
    expect(True, name)


@pytest.mark.slow
@pytest.mark.release
@pytest.mark.parametrize("name", DOCUMENTS)
def test_changes_are_noticed(expect: Expectations, clone: Clone, name: str) -> None:
    """Each change of a document in one place is told; this takes half an hour."""
    document = Document(name, clone.read(name).decode(), expect)
    try_document(document, clone)
    assert [*unnoticed_changes(document, clone)] == []
