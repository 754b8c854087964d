"""The built programs that these tests run: the command, and the programs around it."""
from __future__ import annotations

from pathlib import Path
from typing import Callable

import pytest

from support.running import Command

BuiltProgram = Callable[..., Path]


@pytest.fixture(scope="session")
def run(command: Path) -> Command:
    """Return the built command."""
    return Command(command)


@pytest.fixture(scope="session")
def receiver(built_program: BuiltProgram) -> Command:
    """Return the example of a gateway that stores envelopes."""
    return Command(built_program("receive_copy"))


@pytest.fixture(scope="session")
def relay(built_program: BuiltProgram) -> Command:
    """Return the example of a relay."""
    return Command(built_program("relay_copy"))


@pytest.fixture(scope="session")
def examples(built_program: BuiltProgram) -> Command:
    """Return the program with the examples `json`, `send` and `resume`."""
    return Command(built_program("examples"))


@pytest.fixture(scope="session")
def examples_by_rattle(built_program: BuiltProgram) -> Command:
    """Return the same program, built by the toolchain's other compiler."""
    return Command(built_program("examples", ".by-rattle"))


@pytest.fixture(scope="session")
def calls(built_program: BuiltProgram) -> Command:
    """Return the program that makes each call that allocates."""
    return Command(built_program("envelope_tests"))
