"""Fixtures of the tests that ask the built program `vectors`."""
from __future__ import annotations

from pathlib import Path
from typing import Callable, Iterable, Iterator

import pytest
from vectors.asking import Case, Vectors, check_all


@pytest.fixture(scope="session")
def program(built_program: Callable[[str], Path]) -> Path:
    """Return the path of the program."""
    return built_program("vectors")


@pytest.fixture(scope="session")
def vectors(program: Path) -> Iterator[Vectors]:
    """Return a process of the program, which replies to any number of questions."""
    process = Vectors(program)
    yield process
    process.stop()


@pytest.fixture()
def check_cases(
    program: Path, count_cases: Callable[[int], None]
) -> Callable[[Iterable[Case]], None]:
    """Return a function that asks all cases in batches, and counts them."""
    return lambda cases: count_cases(check_all(program, cases))
