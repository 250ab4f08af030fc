"""Six runs take the instructions that they took when their bounds were written, within 3 %, where the
toolchain's kit has bounds."""

import sys

import pytest

from tests.support import printed_by


@pytest.mark.slow
@pytest.mark.needs("valgrind")
def test_instructions(program: str) -> None:
    last = printed_by(sys.executable, "bench/instructions.py", program, seconds=600).splitlines()[-1]
    assert last == "6 runs within their bounds, 0 above" or last.endswith(": nothing is compared")
