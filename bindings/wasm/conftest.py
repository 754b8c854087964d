"""What the tests of the module, of the package for JavaScript and of the web page share."""
from __future__ import annotations

import subprocess
import tarfile
from pathlib import Path
from typing import Callable

import pytest

from support.bindings.javascript import WASM

OUT = WASM / "out"


@pytest.fixture(scope="session")
def built(
    request: pytest.FixtureRequest,
    library: Path,
    build_once: Callable[[str, Callable[[Path], object]], Path],
) -> Path:
    """Return the directory with the module, the package and the page, or skip the test.

    With ``--gate`` they are built first, of the module that the gate has just proved.
    """

    def build(done: Path) -> None:
        subprocess.run([WASM / "build", "--gate"], check=True)
        done.write_text("built\n", encoding="utf-8")

    if request.config.getoption("--gate"):
        build_once("wasm", build)
    if not (OUT / "iim.html").exists():
        pytest.skip("bindings/wasm/out is not there: run bindings/wasm/build")
    return OUT


@pytest.fixture()
def installed(built: Path, tmp_path: Path) -> Path:
    """Return a directory in which the package is installed, as npm does it."""
    (archive,) = built.glob("iim-*.tgz")
    with tarfile.open(archive) as tar:
        for member in tar.getmembers():
            assert member.name.startswith("package/") and member.isfile(), member.name
        tar.extractall(tmp_path)
    (tmp_path / "node_modules").mkdir()
    (tmp_path / "package").rename(tmp_path / "node_modules" / "iim")
    return tmp_path
