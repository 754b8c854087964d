"""Make what all tests of a run share, once, even if several workers need it."""
from __future__ import annotations

import fcntl
import os
from pathlib import Path
from typing import Callable

import pytest


def shared_folder(factory: pytest.TempPathFactory) -> Path:
    """Return the temporary directory that all workers of this run share."""
    folder = factory.getbasetemp()
    return folder.parent if "PYTEST_XDIST_WORKER" in os.environ else folder


def make_once(factory: pytest.TempPathFactory, name: str, make: Callable[[Path], None]) -> Path:
    """Return a path that `make` makes once per run: the first caller calls it, others wait.

    If it fails, it fails for all of them, and is not called again.
    """
    folder = shared_folder(factory)
    path, failed = folder / name, folder / f"{name}.failed"
    with (folder / f"{name}.lock").open("w") as lock:
        fcntl.flock(lock, fcntl.LOCK_EX)
        made = folder / f"{name}.made"
        if failed.exists():
            pytest.fail(failed.read_text(), pytrace=False)
        if not made.exists():
            try:
                make(path)
            except Exception as error:
                failed.write_text(f"{name}: {error}")
                raise
            made.touch()
    return path
