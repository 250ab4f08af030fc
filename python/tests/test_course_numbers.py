"""docs/course: each number on each page is compared. A change of it makes some test of the course fail."""

import inspect
import types
from collections.abc import Callable
from pathlib import Path

import pytest
import test_course
import test_course_questions
from course import Answer, Course, changes_of

PAGES = [*Course.read().pages]
CHECKS = [
    check
    for module in (test_course, test_course_questions)
    for name, check in vars(module).items()
    if name.startswith("test_") and isinstance(check, types.FunctionType)
]


def fails(check: Callable[..., None], given: dict[str, object]) -> bool:
    """Whether a test of the course fails."""
    try:
        check(**{name: given[name] for name in inspect.signature(check).parameters})
    except (AssertionError, LookupError, TypeError, ValueError):
        return True
    return False


@pytest.mark.slow
@pytest.mark.parametrize("name", PAGES)
def test_each_number_is_compared(answer: Answer, tmp_path: Path, name: str) -> None:
    """No number of a page can be another one unnoticed, while the page as it is passes all tests."""
    course = Course.read()
    given = {"course": course, "answer": answer, "tmp_path": tmp_path}
    assert CHECKS and not [check.__name__ for check in CHECKS if fails(check, given)]
    changes = [*changes_of(course.pages[name])]
    assert changes
    unnoticed = [
        place
        for place, page in changes
        if not any(fails(check, {**given, "course": course.changed(name, page)}) for check in CHECKS)
    ]
    assert unnoticed == []
