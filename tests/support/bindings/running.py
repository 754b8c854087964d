"""Programs that the tests run, and the files that they read and write."""
from __future__ import annotations

import contextlib
import functools
import os
import subprocess
import sys
import time
from pathlib import Path
from typing import Any, Callable, Dict, List, Optional, Sequence, Tuple, TypeVar, Union

import pytest
from support.bindings.paths import SAMPLES, SECONDS

T = TypeVar("T")
Name = Union[str, "os.PathLike[str]"]
NO_ARGUMENTS: List[str] = []


def run(words: Sequence[Name], octets: bytes = b"", **more: Any) -> Tuple[int, bytes, bytes]:
    """Run a program, and return its status, its output and its errors."""
    ran = subprocess.run(words, input=octets, capture_output=True, timeout=SECONDS, **more)
    return ran.returncode, ran.stdout, ran.stderr


def run_text(words: Sequence[Name], **more: Any) -> Tuple[int, str, str]:
    """Run a program without input, and return its status, its output and its errors as text."""
    status, output, errors = run(words, **more)
    return status, output.decode(), errors.decode()


def run_shell(text: str, folder: Name) -> Tuple[int, str, str]:
    """Run a shell program, which ends at its first error."""
    return run_text(["sh", "-e", "-c", text], cwd=folder)


def write_file(folder: Name, name: str, octets: bytes) -> str:
    """Write a file below a directory, and return its path."""
    path = Path(folder, name)
    path.parent.mkdir(parents=True, exist_ok=True)
    path.write_bytes(octets)
    return str(path)


def octets_of(path: Name) -> bytes:
    """Return the bytes of a file."""
    return Path(path).read_bytes()


def text_of(path: Name) -> str:
    """Return the text of a file."""
    return Path(path).read_text(encoding="utf-8")


def files_in(folder: Name) -> List[str]:
    """Return all files of a directory, ordered by the bytes of their names."""
    found = (f"{at}/{name}" for at, _, names in os.walk(folder) for name in names)
    return sorted(found, key=os.fsencode)


@functools.lru_cache(maxsize=None)
def samples() -> Dict[str, bytes]:
    """Return the bytes of each sample, by its path below samples/."""
    paths = sorted(SAMPLES.rglob("*.iim"))
    assert len(paths) > 20, f"{len(paths)} samples"
    return {str(path.relative_to(SAMPLES)): path.read_bytes() for path in paths}


@functools.lru_cache(maxsize=None)
def python_with(*modules: str) -> str:
    """Return a Python that has these modules: this one, or that of the system."""
    found = f"all(importlib.util.find_spec(name) for name in {modules!r})"
    for python in sys.executable, "/usr/bin/python3":
        with contextlib.suppress(OSError):
            # (importing them could take a second)
            if run([python, "-c", f"import importlib.util, sys; sys.exit(not {found})"])[0] == 0:
                return python
    pytest.skip(f"no Python here has {' and '.join(modules)}")


def children(process: int) -> List[int]:
    """Return the children of a process."""
    found = []
    for number in filter(str.isdigit, os.listdir("/proc")):
        with contextlib.suppress(OSError):
            stat = Path(f"/proc/{number}/stat").read_text(encoding="utf-8", errors="replace")
            if int(stat.rpartition(")")[2].split()[1]) == process:
                found.append(int(number))
    return found


def wait_for(found: Callable[[], Optional[T]], words: str, seconds: float = 60) -> T:
    """Wait until a function returns a result."""
    end = time.monotonic() + seconds
    while time.monotonic() < end:
        got = found()
        if got:
            return got
        time.sleep(0.02)
    raise AssertionError(f"waited in vain for {words}")
