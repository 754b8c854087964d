"""The instructions of the command: no more than those of the committed table, which are exact.

`tests/speed/measure --renew-counts` writes the table.
"""
from __future__ import annotations

import shutil
from pathlib import Path

import pytest

from speed import counting
from speed.shapes import SMALL_SHAPES


def test_the_table_has_each_shape() -> None:
    wanted = [(shape, name) for shape in SMALL_SHAPES for name in counting.COMMANDS]
    assert list(counting.table()) == wanted


@pytest.mark.parametrize("shape", SMALL_SHAPES)
def test_needs_no_more_instructions(command: Path, shape: str) -> None:
    if shutil.which("valgrind") is None:
        pytest.skip("valgrind is not installed")
    for name in counting.COMMANDS:
        most = counting.MARGIN * counting.table()[shape, name]
        found = counting.above_nothing(str(command), name, SMALL_SHAPES[shape])
        assert found <= most, f"{name} of {shape}: more than {most:,.0f}"
