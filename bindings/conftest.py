"""Fixtures of the tests of the C library and of the Python package, and what they build.

With ``--gate`` the library is built first, over the libraries that the gate has just left. Without
it the tests are skipped if the library is not there.
"""
from __future__ import annotations

import contextlib
import fcntl
import os
import subprocess
import tempfile
from pathlib import Path
from typing import Callable, Iterator

import pytest

pytest.register_assert_rewrite("support.bindings")

from support.bindings.paths import TOP, environment  # noqa: E402
from support.profiles import load_profile  # noqa: E402

load_profile()


def pytest_configure(config: pytest.Config) -> None:
    """Register the marks."""
    config.addinivalue_line("markers", "fuzz: runs for a minute beside the others")
    # (only pytest-xdist and pytest-timeout know these)
    config.addinivalue_line("markers", "xdist_group: runs in one process with its group")
    config.addinivalue_line("markers", "timeout: fails after some seconds")


@pytest.fixture(scope="session")
def shared_folder(tmp_path_factory: pytest.TempPathFactory) -> Path:
    """Return a directory that all processes of a run share."""
    base = tmp_path_factory.getbasetemp()
    folder = (base.parent if "PYTEST_XDIST_WORKER" in os.environ else base) / "built"
    folder.mkdir(exist_ok=True)
    return folder


@pytest.fixture(scope="session")
def build_once(shared_folder: Path) -> Callable[[str, Callable[[Path], object]], Path]:
    """Return a function that has one process of the run build a file, and returns its path."""

    def build(name: str, make: Callable[[Path], object]) -> Path:
        path = shared_folder / name
        with locked(shared_folder / f"{name}.lock"):
            if not path.exists():
                make(path)
        return path

    return build


@contextlib.contextmanager
def locked(path: Path) -> Iterator[None]:
    """Hold a lock of all processes of the run."""
    with path.open("w", encoding="utf-8") as lock:
        fcntl.flock(lock, fcntl.LOCK_EX)
        yield


def build_library(done: Path) -> None:
    """Build the library over the libraries that the gate has left."""
    subprocess.run([TOP / "bindings" / "build", "--gate"], check=True)
    done.write_text("built\n", encoding="utf-8")


@pytest.fixture(scope="session")
def library(
    request: pytest.FixtureRequest,
    build_once: Callable[[str, Callable[[Path], object]], Path],
) -> Path:
    """Return the path of the shared library for C, or skip the test if it is not there."""
    path = TOP / "bindings" / "out" / "libiim.so.1"
    if request.config.getoption("--gate"):
        build_once("library", build_library)
    if not path.exists():
        pytest.skip(f"{path.relative_to(TOP)} is not there: run bindings/build")
    return path


@pytest.fixture(scope="session", autouse=True)
def environment_of_children(library: Path) -> Iterator[None]:
    """Let the programs that tests run find the package."""
    with pytest.MonkeyPatch.context() as patch:
        patch.delenv("PYTHONUNBUFFERED", raising=False)
        for name, value in environment().items():
            patch.setenv(name, value)
        yield


@pytest.fixture()
def folder() -> Iterator[str]:
    """Return the path of an empty directory, which other users may read if a test lets them.

    A process of a browser may write in it for a moment after the browser has ended. Files that
    can't be removed because of that remain, and are no failure of the test.
    """
    with tempfile.TemporaryDirectory(ignore_cleanup_errors=True) as path:
        yield path
