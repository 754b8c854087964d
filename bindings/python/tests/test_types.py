"""Types of the package, of scripts and of the pages' programs, by mypy."""
from __future__ import annotations

import os
import re
import shutil
import sys
from typing import Dict, List, Optional, Tuple, get_type_hints

import iim
import pytest
from iim.datasets import ATTRIBUTES
from support.bindings.pages import blocks
from support.bindings.paths import SOURCES, TOP, environment
from support.bindings.running import Name, run_text, text_of, write_file

PACKAGE = SOURCES / "iim"
CONFIGURATION = TOP / "bindings" / "python" / "mypy.ini"
SUCCESS = "Success: no issues found in 1 source file\n"


@pytest.fixture(scope="module")
def mypy(tmp_path_factory: pytest.TempPathFactory) -> List[Name]:
    """Return the arguments that run mypy, with a cache that all runs of this file share."""
    cache = tmp_path_factory.mktemp("mypy")
    options = "--strict", "--config-file", CONFIGURATION, "--no-color-output", "--cache-dir", cache
    return [shutil.which("mypy") or pytest.skip("mypy is not installed"), *options]


def modules() -> List[str]:
    """Return the modules of the package."""
    return [str(path) for path in sorted(PACKAGE.rglob("*.py"))]


def typed(mypy: List[Name], *paths: Name) -> Tuple[int, str, str]:
    """Run mypy on files that import the package, and return its output."""
    return run_text([*mypy, *paths], env=environment(MYPYPATH=str(SOURCES)))


def test_types_each_named_dataset() -> None:
    # (a mandatory dataset is never `None`)
    lines = text_of(TOP / "docs" / "reference" / "format.md").splitlines()
    rows = [
        [cell.strip() for cell in line.strip("| ").split(" | ")]
        for line in lines
        if re.match(r"\| [12]:\d+ \|", line)
    ]
    named = {tuple(map(int, row[0].split(":"))): (row[4], row[5]) for row in rows if len(row) == 6}
    kind: Dict[Tuple[str, ...], object] = {
        ("mandatory", "no"): iim.Octets,
        ("optional", "no"): Optional[iim.Octets],
        ("optional", "yes"): List[iim.Octets],
    }
    assert len(named) == 40 == len(ATTRIBUTES)
    for name, (record, number, _) in ATTRIBUTES.items():
        attribute = getattr(iim.Envelope, name)
        assert isinstance(attribute, property) and attribute.fget, name
        returned = get_type_hints(attribute.fget)["return"]
        assert (name, returned) == (name, kind[named[record, number]])


def test_mypy_accepts_the_package(mypy: List[Name]) -> None:
    names = modules()
    assert len(names) > 20 and (PACKAGE / "py.typed").exists()
    printed = f"Success: no issues found in {len(names)} source files\n"
    assert typed(mypy, *names) == (0, printed, "")


def test_mypy_accepts_the_oldest_python(mypy: List[Name], folder: str) -> None:
    settings = text_of(TOP / "bindings" / "python" / "pyproject.toml")
    (claimed,) = re.findall(r'^requires-python = ">= (3\.\d+)"$', settings, re.M)
    names = modules()
    printed = (0, f"Success: no issues found in {len(names)} source files\n", "")
    assert typed(mypy, "--python-version", claimed, *names) == printed
    # (and it detects attributes that the module lacks)
    text = "def joined(one: dict[str, int], other: dict[str, int]) -> dict[str, int]:\n"
    path = write_file(folder, "newer.py", f"{text}    return one | other\n".encode())
    assert typed(mypy, "--python-version", claimed, path)[0] == 1
    for page in "docs/guide/python.md", "packages/README", "README.md":
        found = re.findall(r"(?:needs|for) Python (3\.\d+)(?:,| and later)", text_of(TOP / page))
        assert (page, found) == (page, [claimed])


def test_mypy_accepts_the_scripts(mypy: List[Name]) -> None:
    for path in "build", "packages/sbom", "tests/support/spdx.py":
        assert (path, *run_text([*mypy, TOP / path])) == (path, 0, SUCCESS, "")


def test_mypy_accepts_the_programs_of_the_pages(mypy: List[Name], folder: str) -> None:
    pages = "README.md", *sorted(str(page) for page in (TOP / "docs" / "guide").glob("*.md"))
    programs = [text for page in pages for name, text in blocks(page) if name == "python"]
    assert len(programs) == 5
    for number, program in enumerate(programs):
        path = write_file(folder, f"program{number}.py", program.encode())
        assert typed(mypy, path) == (0, SUCCESS, "")


def test_mypy_finds_an_unknown_dataset_name(mypy: List[Name], folder: str) -> None:
    lines = [
        "import iim\n",
        "for envelope in iim.read('copy.iim'):",
        "    print(envelope.headlin)",
        "    print(envelope.bylines.text('ascii'))\n",
    ]
    status, printed, _ = typed(mypy, write_file(folder, "wrong.py", "\n".join(lines).encode()))
    found = re.findall(r":(\d+): error: .* has no attribute \"(\w+)\"", printed)
    assert (status, found) == (1, [("4", "headlin"), ("5", "text")])


def test_pydoc_works_without_the_library(folder: str) -> None:
    shutil.copytree(PACKAGE, f"{folder}/iim", ignore=shutil.ignore_patterns("__pycache__"))
    words = [sys.executable, "-m", "pydoc", "iim"]
    env = {**os.environ, "IIM_LIBRARY": f"{folder}/none.so", "PYTHONPATH": folder}
    status, printed, _ = run_text(words, env=env)
    assert (status, "class Envelope" in printed) == (0, True)
    assert "def read(" in printed or "read(file" in printed
