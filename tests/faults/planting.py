"""Plant a fault in a copy of the repository, and run the test that has to find it."""
from __future__ import annotations

import functools
import os
import re
import shutil
import subprocess
import threading
from pathlib import Path
from typing import Dict, List

from faults.fault import TOP, Fault

SECONDS = 300
# The directories that a copy shares with the repository: what is proved, and what is built.
SHARED = ("crates", ".git")
BUILT = "out"
PASSED, FAILED = 0, 1
# Each test is run without a fault once, though several faults are tried at a time.
LOCKS: Dict[str, threading.Lock] = {}


class Copy:
    """A copy of the repository in which a fault can be planted."""

    def __init__(self, folder: Path) -> None:
        """Make the copy, with links to what is proved or built."""
        self.top = folder / "copy"

        def link_built(at: str, names: List[str]) -> List[str]:
            return [name for name in names if name in (BUILT, "__pycache__", ".mypy_cache")]

        self.top.mkdir()
        for path in TOP.iterdir():
            to = self.top / path.name
            if path.name in SHARED:
                to.symlink_to(path)
            elif path.is_dir():
                shutil.copytree(path, to, ignore=link_built, symlinks=True)
            else:
                shutil.copy2(path, to)
        for built in (TOP / "bindings" / BUILT, TOP / "packages" / BUILT):
            if built.exists():
                (self.top / built.relative_to(TOP)).symlink_to(built)

    def run(self, test: str) -> subprocess.CompletedProcess[str]:
        """Run a test in the copy."""
        words = ["pytest", "-q", "-x", "-p", "no:cacheprovider", test]
        environment = {**os.environ, "PYTHONDONTWRITEBYTECODE": "1"}
        return subprocess.run(
            words, cwd=self.top, capture_output=True, text=True, timeout=SECONDS, env=environment
        )


@functools.lru_cache(maxsize=None)
def status_without_fault(test: str) -> int:
    """Return the status of a test in the repository as it is."""
    words = ["pytest", "-q", "-x", "-p", "no:cacheprovider", test]
    environment = {**os.environ, "PYTHONDONTWRITEBYTECODE": "1"}
    return subprocess.run(words, cwd=TOP, capture_output=True, env=environment).returncode


def verdict_of(copy: Copy, fault: Fault) -> str:
    """Return what is wrong, or nothing if the test fails with the fault and passes without it."""
    with LOCKS.setdefault(fault.test, threading.Lock()):
        without = status_without_fault(fault.test)
    # (a test that is skipped finds nothing: then the run with the fault passes, too)
    if without != PASSED:
        return f"{fault.test} does not pass without the fault: status {without}"
    fault.apply(copy.top)
    ran = copy.run(fault.test)
    name = fault.test.rpartition("::")[2].partition("[")[0]
    found = re.search(rf"^FAILED \S*::{re.escape(name)}\b", ran.stdout, re.M)
    if ran.returncode == PASSED:
        return f"survives {fault.test}"
    if ran.returncode != FAILED or not found:
        return f"{fault.test} is not what fails: status {ran.returncode}"
    return ""
