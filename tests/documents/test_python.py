"""Check the style and the types of all Python with the tools that its programmers use."""
from __future__ import annotations

import re
import shutil
import subprocess
from pathlib import Path
from typing import List

import pytest

from pages.items import TOP

FOLDERS = ["tests", "bindings", "docs/site"]
# The tools look for files whose names end in .py, so these are named.
SCRIPTS = [
    "build",
    "docs/build",
    "packages/kills",
    "packages/make_root",
    "packages/python/iim-archive",
    "packages/python/iim-explain",
    "packages/sbom",
    "tests/minutes",
    "tests/mutate",
    "tests/speed/compare",
    "tests/speed/measure",
    "tests/speed/measure_handle",
    "tests/write_pages",
    "tests/wrong_bodies",
]


def run(*words: str) -> List[str]:
    """Run a tool in the repository, and return its status and what it prints, by lines."""
    if not shutil.which(words[0]):
        pytest.skip(f"{words[0]} is not installed")
    ran = subprocess.run(words, cwd=TOP, capture_output=True, text=True)
    return [str(ran.returncode), *(ran.stdout + ran.stderr).splitlines()]


def is_script(path: Path) -> bool:
    """Check whether a file without a suffix begins as a program in Python."""
    if path.suffix or not path.is_file():
        return False
    with path.open("rb") as file:
        return re.match(rb"#!/usr/bin/(env )?python3", file.readline()) is not None


def test_names_each_script_without_a_suffix() -> None:
    listed = subprocess.run(["git", "ls-files"], cwd=TOP, capture_output=True, text=True)
    paths = listed.stdout.splitlines()
    assert len(paths) > 1000
    assert [path for path in paths if is_script(Path(TOP, path))] == SCRIPTS


def test_has_the_layout_of_black() -> None:
    assert run("black", "--check", "--quiet", *FOLDERS, *SCRIPTS, "conftest.py") == ["0"]


def test_has_no_warning_of_flake8() -> None:
    assert run("flake8", *FOLDERS, *SCRIPTS, "conftest.py") == ["0"]


# (two scripts are named `build`, and mypy takes the name of a module once)
@pytest.mark.parametrize(
    "names",
    [FOLDERS, ["conftest.py", *SCRIPTS[1:]], SCRIPTS[:1]],
    ids=["folders", "scripts", "build"],
)
def test_has_types(names: List[str], tmp_path: Path) -> None:
    status, *printed = run("mypy", "--strict", "--cache-dir", str(tmp_path), *names)
    assert (status, printed[:-1]) == ("0", [])
    assert printed[-1].startswith("Success: no issues found in ")
