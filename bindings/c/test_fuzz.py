"""Run the C library under libFuzzer for a minute, and find planted faults by it."""
from __future__ import annotations

import re
from pathlib import Path
from typing import Callable

import pytest
from support.bindings.paths import TOP
from support.bindings.running import run_text


@pytest.mark.fuzz
@pytest.mark.xdist_group("fuzz")
def test_finds_no_failure_in_a_minute(library: Path, count_cases: Callable[[int], None]) -> None:
    status, output, errors = run_text([TOP / "tests" / "fuzz" / "run"])
    counts = re.fullmatch(r"(\d+) passed, 0 failed(, 1 skipped)?", output.splitlines()[-1])
    assert counts and status == 0, output + errors
    if counts[2]:
        pytest.skip(output.splitlines()[0])
    count_cases(int(counts[1]))
