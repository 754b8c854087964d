"""The tests of the Python package, against the package that the wheel and Debian install.

`support.installed` names what runs there; all tests of the package run in the clone.
"""
from __future__ import annotations

import os
import re
import shutil
import subprocess
import time
from pathlib import Path

import pytest

from support import installed
from support.debian import Root
from support.packages import PYTHON, SECONDS, WHEEL, Packages, run
from support.running import TOP

# The least number of tests that run against each, and the most seconds of them.
LEAST, MOST = 40, 900
# What pytest and the tests import, which a root of Debian has not: that of this machine.
DEBIAN = Path("/usr/lib/python3/dist-packages")
MODULES = "py py.py py-* pytest pytest-7* _pytest pluggy* iniconfig* packaging* attr* xdist "
MODULES += "pytest_xdist* execnet* hypothesis* _hypothesis* sortedcontainers* pytest_timeout*"
ROOM = "/srv/tested"


def expect_passed(output: str, began: float) -> None:
    """Check the closing line of the tests. Those of open files are skipped without /proc."""
    counts = re.fullmatch(r"(\d+) passed, 0 failed(?:, \d+ skipped)?", output.splitlines()[-1])
    assert counts and int(counts[1]) >= LEAST, output[-2000:]
    assert time.monotonic() - began < MOST


def wheel_environment(packages: Packages, folder: Path) -> Path:
    """Return the Python of an environment with the wheel, which has the pytest of Debian."""
    path = folder / "environment"
    run([PYTHON, "-m", "venv", "--system-site-packages", path])
    options = ["--no-cache-dir", "--disable-pip-version-check", "--no-index", "--no-deps"]
    run([path / "bin" / "pip", "install", *options, packages.out / WHEEL])
    return path / "bin" / "python"


def run_tests(
    python: Path, tests: Path, package: str, command: Path, *more: str
) -> subprocess.CompletedProcess[str]:
    """Run the tests of a directory with a Python."""
    ours = "PYTHON", "IIM_", "LD_", "PYTEST_", "COV_"
    env = {name: value for name, value in os.environ.items() if not name.startswith(ours)}
    env |= {"PYTHONPATH": str(tests / "tests"), installed.DIRECTORY: package}
    words = [str(python), *installed.words_of_pytest(str(command)), *more]
    return subprocess.run(
        words, cwd=tests, env=env, capture_output=True, text=True, timeout=SECONDS
    )


def package_of(python: Path) -> str:
    """Return the directory in which the environment of a Python has the package."""
    version = run([python, "-c", "import sys; print('python%d.%d' % sys.version_info[:2])"])
    return f"{python.parents[1]}/lib/{version.strip()}/site-packages/iim"


def test_wheel_passes_tests_of_the_package(packages: Packages, tmp_path: Path) -> None:
    python, tests = wheel_environment(packages, tmp_path), tmp_path / "tests"
    installed.copy_tests(TOP, tests)
    began = time.monotonic()
    ran = run_tests(python, tests, package_of(python), packages.command)
    assert ran.returncode == 0, ran.stdout[-3000:] + ran.stderr[-1000:]
    expect_passed(ran.stdout, began)


def test_rejects_a_package_from_elsewhere(packages: Packages, tmp_path: Path) -> None:
    # (beside the tests are the sources again, which the settings of pytest put on the path)
    python, tests = wheel_environment(packages, tmp_path), tmp_path / "tests"
    installed.copy_tests(TOP, tests)
    shutil.copytree(TOP / "bindings/python/src", tests / "bindings/python/src")
    ran = run_tests(python, tests, package_of(python), packages.command)
    assert ran.returncode != 0
    assert f"the tests would import {tests}/bindings/python/src/iim/" in ran.stdout + ran.stderr


@pytest.mark.xdist_group("debian")
def test_debian_passes_tests_of_the_package(root: Root) -> None:
    with root.installed("python3-iim", "iimwire"), root.folder(ROOM) as folder:
        installed.copy_tests(TOP, folder / "tests")
        for path in {path for name in MODULES.split() for path in DEBIAN.glob(name)}:
            to = folder / "modules" / path.name
            if path.is_dir():
                shutil.copytree(path, to, ignore=shutil.ignore_patterns("__pycache__"))
            else:
                to.parent.mkdir(exist_ok=True)
                shutil.copy(path, to)
        words = " ".join(installed.words_of_pytest("/usr/bin/iimwire"))
        paths = f"PYTHONDONTWRITEBYTECODE=1 PYTHONPATH={ROOM}/tests/tests:{ROOM}/modules"
        where = f"{installed.DIRECTORY}=/usr/lib/python3/dist-packages/iim"
        began = time.monotonic()
        expect_passed(root.run(f"cd {ROOM}/tests && {paths} {where} python3 {words}"), began)
