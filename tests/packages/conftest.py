"""The built packages, and a root of Debian in which they are installed."""
from __future__ import annotations

import os
import shutil
import subprocess
from pathlib import Path

import pytest

from support.debian import Root
from support.once import make_once
from support.packages import HERE, INPUTS, SECONDS, Packages
from support.running import TOP


@pytest.fixture(scope="session")
def built_packages(
    request: pytest.FixtureRequest, tmp_path_factory: pytest.TempPathFactory
) -> Path:
    """Return the directory of the packages, which packages/build makes once in a run."""
    given = request.config.getoption("--packages")
    if given:
        return Path(os.path.abspath(given))
    for name in INPUTS:
        if not (TOP / name).exists():
            pytest.skip(f"{name} is not there: run `rt ci`, or packages/build")
    proofs = request.config.getoption("--proofs")
    words = [f"{HERE}/build", *(["--gate", os.path.abspath(proofs)] if proofs else [])]

    def build(_: Path) -> None:
        subprocess.run(words, check=True, capture_output=True, timeout=4 * 3600)

    make_once(tmp_path_factory, "packages", build)
    return HERE / "out"


@pytest.fixture(scope="session")
def packages(built_packages: Path, tmp_path_factory: pytest.TempPathFactory) -> Packages:
    """Return the packages, which are unpacked when a test needs them."""
    return Packages(built_packages, tmp_path_factory.mktemp("unpacked"))


@pytest.fixture(scope="session")
def root(
    request: pytest.FixtureRequest, packages: Packages, tmp_path_factory: pytest.TempPathFactory
) -> Root:
    """Return an empty root of Debian, that of --root or a new one."""
    if os.geteuid() != 0:
        pytest.skip("only root can install packages in a root of Debian")
    given = request.config.getoption("--root")
    if given:
        return Root(Path(os.path.abspath(given)), packages)

    def make(path: Path) -> None:
        subprocess.run([HERE / "make_root", path], check=True, timeout=SECONDS)

    path = make_once(tmp_path_factory, "root", make)
    request.addfinalizer(lambda: shutil.rmtree(path, ignore_errors=True))
    return Root(path, packages)
