"""The tests of the Python package, run against the package that is installed somewhere.

As a plugin of pytest (``-p support.installed``) this rejects a package from anywhere else.
"""
from __future__ import annotations

import os
import shutil
from pathlib import Path
from typing import List

import pytest

# Where the package has to come from, by its directory.
DIRECTORY = "IIM_TESTED"
# What runs against an installed package: its other tests need what is beside it in a clone.
NAMES = "receiver", "packing", "values", "streams", "reading"
# What these read of the repository. The sources of the package are not among it.
READ = "tests", "samples", "docs", "bindings/python/tests"
READ_FILES = (
    "conftest.py",
    "pyproject.toml",
    "bindings/conftest.py",
    "bindings/c/iim.h",
    # The library's texts of the causes, and their layers.
    "crates/iim_c/src/causes.rt",
    "crates/iim_places/specs/Format/Causes.antt",
)


def pytest_configure(config: pytest.Config) -> None:
    """Stop the run if the package that is imported is not the installed one."""
    import iim

    if Path(iim.__file__).parent != Path(os.environ[DIRECTORY]):
        raise pytest.UsageError(f"the tests would import {iim.__file__}")


def copy_tests(top: Path, folder: Path) -> None:
    """Copy what the tests need into a directory, without the package and its library."""
    ignore = shutil.ignore_patterns("__pycache__", "out")
    for name in READ:
        shutil.copytree(top / name, folder / name, ignore=ignore)
    for name in READ_FILES:
        (folder / name).parent.mkdir(parents=True, exist_ok=True)
        shutil.copy(top / name, folder / name)
    # (the tests look whether the library is built; one that is empty can't be loaded)
    (folder / "bindings" / "out").mkdir()
    (folder / "bindings" / "out" / "libiim.so.1").touch()


def words_of_pytest(command: str) -> List[str]:
    """Return the arguments of Python that run the tests in the directory."""
    files = [f"bindings/python/tests/test_{name}.py" for name in NAMES]
    return ["-m", "pytest", "-q", "-p", "support.installed", "--command", command, *files]
