"""Paths, time limits and environments of the tests of bindings/."""
from __future__ import annotations

import os
import sys
from pathlib import Path
from typing import Dict

TOP = Path(__file__).resolve().parents[3]
SAMPLES = TOP / "samples"
# The package, and what children of the tests import beside it.
SOURCES = TOP / "bindings" / "python" / "src"
PYTHON_TESTS = TOP / "bindings" / "python" / "tests"
HEADER = TOP / "bindings" / "c" / "iim.h"
BUILT = TOP / "bindings" / "out"
# The seconds after which a child has failed, and those of the longest.
SECONDS = 300
# The instant of the tests that compare ages and embargoes.
NOW = "2024-03-01T12:00:00Z"
# The arguments that run the programs of the package.
ARCHIVE = [sys.executable, "-m", "iim.archive"]
MODULE = [sys.executable, "-m", "iim"]


def unmeasured(**more: str) -> Dict[str, str]:
    """Return the same environment for a child whose coverage can't be measured.

    It has too few rights or too little space to write what it has executed.
    """
    env = environment(**more)
    return {name: value for name, value in env.items() if not name.startswith("COV_CORE_")}


def environment(**more: str) -> Dict[str, str]:
    """Return the environment of a child that imports the package and the helpers of tests."""
    paths = [str(SOURCES), str(TOP / "tests"), os.environ.get("PYTHONPATH", "")]
    python_path = os.pathsep.join(filter(None, paths))
    # (a program without a buffer would fail elsewhere if its output does)
    inherited = {name: value for name, value in os.environ.items() if name != "PYTHONUNBUFFERED"}
    return {**inherited, "PYTHONDONTWRITEBYTECODE": "1", "PYTHONPATH": python_path, **more}
