"""Fixtures of all tests that need no proof, and their closing line.

The last line of a run is ``N passed, M failed``, with ``, K skipped`` if tests were skipped. A test
counts as one, unless it checks many cases and says how many with `count_cases`. With ``--gate`` a
skipped test is a failure.
"""
from __future__ import annotations

import dataclasses
import os
from pathlib import Path
from typing import Callable, Optional

import pytest

TOP = Path(__file__).resolve().parent


def pytest_addoption(parser: pytest.Parser) -> None:
    """Add the options of this repository."""
    parser.addoption("--gate", action="store_true", help="count each skipped test as a failure")
    parser.addoption("--command", metavar="PATH", help="the command to test [default: the built]")
    for name, help_text in {
        "--packages": "the built packages [default: packages/build makes them]",
        "--proofs": "what the gate printed of the proofs, for packages/build --gate",
        "--root": "the root of Debian to install in [default: packages/make_root makes one]",
    }.items():
        parser.addoption(name, metavar="PATH", help=help_text)


def pytest_cmdline_main(config: pytest.Config) -> None:
    """Let workers of xdist keep the tests of an `xdist_group` together, with `-n` alone."""
    if config.option.dist == "load":
        config.option.dist = "loadgroup"


@dataclasses.dataclass(eq=False)
class ClosingLine:
    """Counts what the tests report, and prints the closing line."""

    gate: bool
    passed: int = 0
    failed: int = 0
    skipped: int = 0

    def pytest_runtest_logreport(self, report: pytest.TestReport) -> None:
        """Count a test, once."""
        if report.failed:
            self.failed += 1
        elif report.skipped:
            self.skipped += 1
        elif report.when == "call":
            cases = [value for name, value in report.user_properties if name == "cases"]
            self.passed += sum(map(int, map(str, cases))) if cases else 1

    def pytest_collectreport(self, report: pytest.CollectReport) -> None:
        """Count a file that cannot be collected."""
        self.failed += report.failed
        self.skipped += report.skipped

    def pytest_sessionfinish(self, session: pytest.Session) -> None:
        """Let the gate fail if a test was skipped."""
        if self.gate and self.skipped and not session.exitstatus:
            session.exitstatus = pytest.ExitCode.TESTS_FAILED

    def pytest_unconfigure(self) -> None:
        """Print the closing line, after everything else."""
        failed = self.failed + (self.skipped if self.gate else 0)
        skipped = f", {self.skipped} skipped" if self.skipped and not self.gate else ""
        print(f"{self.passed} passed, {failed} failed{skipped}", flush=True)


def pytest_configure(config: pytest.Config) -> None:
    """Count in the process that prints, and not in the workers of xdist."""
    if not hasattr(config, "workerinput"):
        config.pluginmanager.register(ClosingLine(config.getoption("--gate")), "closing-line")


@pytest.fixture(scope="session")
def top() -> Path:
    """Return the top directory of the repository."""
    return TOP


@pytest.fixture()
def count_cases(record_property: Callable[[str, object], None]) -> Callable[[int], None]:
    """Return a function that says how many cases a test has checked."""
    return lambda cases: record_property("cases", cases)


def built(path: Path, how: str) -> Path:
    """Return a path to what is built, or skip the test if it is not there."""
    if not path.exists():
        pytest.skip(f"{path.relative_to(TOP)} is not there: {how}")
    return path


@pytest.fixture(scope="session")
def built_program() -> Callable[[str], Path]:
    """Return a function that gives the path of a crate's built program, or skips the test."""

    def find(crate: str, suffix: str = "") -> Path:
        path = TOP / "crates" / crate / "out" / f"{crate}{suffix}"
        return built(path, f"run `rt run` in crates/{crate}")

    return find


@pytest.fixture(scope="session")
def command(request: pytest.FixtureRequest, built_program: Callable[[str], Path]) -> Path:
    """Return the path of the command under test."""
    given: Optional[str] = request.config.getoption("--command")
    return Path(os.path.abspath(given)) if given else built_program("iimwire")


@pytest.fixture(scope="session")
def library() -> Path:
    """Return the path of the shared library for C."""
    return built(TOP / "bindings" / "out" / "libiim.so.1", "run bindings/build")
